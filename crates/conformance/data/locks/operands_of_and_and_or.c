pthread_mutex_t m;
int x, y, z, c;
pthread_t t;

void *w(void *q) {
  pthread_mutex_lock(&m);
  x = 1;
  y = 1;
  z = 1;
  pthread_mutex_unlock(&m);
  return 0;
}

int main(void) {
  pthread_create(&t, 0, w, 0);
  c && (pthread_mutex_lock(&m), x = 2, pthread_mutex_unlock(&m));
  if (c && !pthread_mutex_lock(&m))
    y = 2;
  if (!pthread_mutex_lock(&m) || c)
    z = 2;
  return 0;
}
