void *a(void *q) {
  return q;
}
void *b(void *q) {
  return 0;
}
void work(pthread_t *t, int c) {
  pthread_create(t, 0, c ? a : b, 0);
}
