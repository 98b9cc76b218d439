void *work(void *p) {
  return realloc(p, 9);
}
