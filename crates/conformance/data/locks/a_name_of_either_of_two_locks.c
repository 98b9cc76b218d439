pthread_mutex_t a, b;
int x, y, z, c;
pthread_t t;

void *w(void *q) {
  pthread_mutex_t *l = c ? &a : &b;
  pthread_mutex_lock(l);
  x = 1;
  pthread_mutex_unlock(l);
  pthread_mutex_lock(&a);
  y = 1;
  pthread_mutex_unlock(l);
  z = 1;
  return 0;
}

int main(void) {
  pthread_create(&t, 0, w, 0);
  pthread_mutex_lock(&a);
  x = 2;
  y = 2;
  z = 2;
  pthread_mutex_unlock(&a);
  return 0;
}
