char *work(int n) {
  return calloc(n, 1);
}
