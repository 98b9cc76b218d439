void *w(void *q) {
  return q;
}
void work(pthread_t *t, int n) {
  pthread_create(t, 0, w, n);
}
