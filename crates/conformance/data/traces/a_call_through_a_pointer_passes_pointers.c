pthread_mutex_t a;
int x;
void go(pthread_mutex_t *l, int *p) {
  pthread_mutex_lock(l);
  *p = 1;
  pthread_mutex_unlock(l);
}
void (*f)(pthread_mutex_t *, int *) = go;
void *w(void *q) {
  f(&a, &x);
  return 0;
}
int main(void) {
  pthread_t t;
  pthread_create(&t, 0, w, 0);
  f(&a, &x);
  return 0;
}
