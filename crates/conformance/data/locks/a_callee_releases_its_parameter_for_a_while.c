pthread_mutex_t m;
int n, k;
pthread_t t;

void pause(pthread_mutex_t *l) {
  pthread_mutex_unlock(l);
  n = 1;
  pthread_mutex_lock(l);
}

void *w(void *q) {
  pthread_mutex_lock(&m);
  pause(&m);
  k = 1;
  pthread_mutex_unlock(&m);
  return 0;
}

int main(void) {
  pthread_create(&t, 0, w, 0);
  pthread_mutex_lock(&m);
  n = 2;
  k = 2;
  pthread_mutex_unlock(&m);
  return 0;
}
