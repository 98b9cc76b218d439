pthread_mutex_t a, b;
int x, y;
pthread_t t;

void take(pthread_mutex_t *l) {
  pthread_mutex_lock(l);
}

void give(pthread_mutex_t *l) {
  pthread_mutex_unlock(l);
}

void *w(void *q) {
  take(&a);
  take(&b);
  x = 1;
  give(&b);
  y = 1;
  give(&a);
  return 0;
}

int main(void) {
  pthread_create(&t, 0, w, 0);
  take(&b);
  x = 2;
  give(&b);
  take(&a);
  y = 2;
  give(&a);
  return 0;
}
