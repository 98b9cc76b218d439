int *work(void) {
  return malloc((sizeof(int)));
}
