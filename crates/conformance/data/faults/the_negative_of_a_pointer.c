int work(int *p) {
  return -p == p;
}
