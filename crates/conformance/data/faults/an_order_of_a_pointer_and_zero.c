int work(int *p) {
  return p > 0;
}
