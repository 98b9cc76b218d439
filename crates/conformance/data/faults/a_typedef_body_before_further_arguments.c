typedef int work(int n, ...) {
  return 0;
}
