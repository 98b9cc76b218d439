void *w(void *q) {
  return q;
}
void work(void) {
  pthread_t t;
  pthread_create(&t, 1, w);
}
