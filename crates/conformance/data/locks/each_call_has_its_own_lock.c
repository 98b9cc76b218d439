pthread_mutex_t a, b;
int x, y, z;
pthread_t t;

void set(pthread_mutex_t *l, int *p) {
  pthread_mutex_lock(l);
  *p = 1;
  pthread_mutex_unlock(l);
}

void *w(void *q) {
  set(&a, &x);
  set(&b, &y);
  set(&b, &z);
  return 0;
}

int main(void) {
  pthread_create(&t, 0, w, 0);
  set(&a, &x);
  set(&b, &y);
  set(&a, &z);
  return 0;
}
