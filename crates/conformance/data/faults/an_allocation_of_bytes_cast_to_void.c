char *work(void) {
  return (void *)malloc(5);
}
