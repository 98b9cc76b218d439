int *work(void) {
  return malloc(sizeof(int) * sizeof(long));
}
