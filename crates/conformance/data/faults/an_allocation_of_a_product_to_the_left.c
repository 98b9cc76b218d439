int *work(int n) {
  return malloc(sizeof(int) * n * 2);
}
