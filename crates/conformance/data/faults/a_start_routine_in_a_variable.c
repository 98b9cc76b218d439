void *w(void *q) {
  return q;
}
void work(pthread_t *t) {
  void *(*way)(void *) = w;
  pthread_create(t, 0, way, 0);
}
