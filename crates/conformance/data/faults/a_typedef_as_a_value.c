typedef int count;
int work(int n) {
  return n + count;
}
