void *w(void *q) {
  return q;
}
int main(void) {
  pthread_mutex_t m;
  pthread_cond_t c;
  pthread_t t;
  pthread_mutex_init(&m, (void *)0);
  pthread_cond_init(&c, 1 - 1);
  return pthread_create(&t, 0L, w, &m);
}
