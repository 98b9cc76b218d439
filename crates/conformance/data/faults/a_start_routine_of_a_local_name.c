void *w(void *q) {
  return q;
}
void work(pthread_t *t) {
  void *w = 0;
  pthread_create(t, 0, w, 0);
}
