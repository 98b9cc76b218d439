void *w(void *q) {
  return q;
}
