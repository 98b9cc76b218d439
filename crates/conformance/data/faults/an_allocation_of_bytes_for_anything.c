void *work(int n) {
  void *p = malloc(n);
  return p;
}
