void *w(void *q) {
  return q;
}
int main(void) {
  pthread_t t;
  pthread_create(&t, 0, w, 0);
  return pthread_join(t, (void *)0);
}
