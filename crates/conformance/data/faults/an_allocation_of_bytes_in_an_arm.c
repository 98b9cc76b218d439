char *work(int c) {
  return c ? malloc(5) : 0;
}
