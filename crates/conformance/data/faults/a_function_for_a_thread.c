void *w(void *q) {
  return q;
}
void work(pthread_t *t) {
  pthread_create(t, 0, w, w);
}
