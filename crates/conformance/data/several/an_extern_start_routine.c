void *w(void *q);
void work(pthread_t *t) {
  pthread_create(t, 0, w, 0);
}
