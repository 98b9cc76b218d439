pthread_mutex_t m;
int n, k, c;
pthread_t t;

void *w(void *q) {
  pthread_mutex_lock(&m);
  n = 1;
  k = 1;
  pthread_mutex_unlock(&m);
  return 0;
}

int main(void) {
  pthread_create(&t, 0, w, 0);
  c ? pthread_mutex_lock(&m) : pthread_mutex_lock(&m);
  n = 2;
  pthread_mutex_unlock(&m);
  c ? pthread_mutex_lock(&m) : 0;
  k = 2;
  return 0;
}
