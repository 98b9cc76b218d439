int *work(void) {
  return malloc(8);
}
