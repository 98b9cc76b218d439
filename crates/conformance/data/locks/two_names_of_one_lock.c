pthread_mutex_t m;
int n;
pthread_t t;

void *w(void *q) {
  pthread_mutex_t *l = q;
  pthread_mutex_lock(l);
  n = 1;
  pthread_mutex_unlock(l);
  return 0;
}

int main(void) {
  pthread_mutex_t *l = &m;
  pthread_create(&t, 0, w, &m);
  pthread_create(&t, 0, w, l);
  pthread_mutex_lock(l);
  n = 2;
  pthread_mutex_unlock(&m);
  return 0;
}
