char *work(void) {
  return malloc(sizeof(int) + 1);
}
