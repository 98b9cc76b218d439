int n;
void *w(void *q) {
  return q;
}
void work(void) {
  pthread_create(&n, 0, w, 0);
}
