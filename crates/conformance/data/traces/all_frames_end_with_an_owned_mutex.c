void f(pthread_mutex_t *p, int k) {
  pthread_mutex_lock(p);
  if (k)
    exit(1);
  pthread_exit(0);
}
void *w(void *q) {
  pthread_mutex_t m[3] = { PTHREAD_MUTEX_INITIALIZER };
  f(&m[2], 0);
  return 0;
}
int main(void) {
  pthread_mutex_t m[2] = { PTHREAD_MUTEX_INITIALIZER, PTHREAD_MUTEX_INITIALIZER };
  pthread_t t;
  pthread_create(&t, 0, w, 0);
  f(m, 1);
  return 0;
}
