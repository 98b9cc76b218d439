extern pthread_attr_t large;
void *w(void *q) {
  return q;
}
void work(pthread_t *t) {
  pthread_create(t, &large, w, 0);
}
