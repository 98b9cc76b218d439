pthread_mutex_t a, b;
int x, y;
pthread_t t;

int take(int k) {
  pthread_mutex_lock(&b);
  if (k) {
    pthread_mutex_unlock(&b);
    pthread_mutex_lock(&a);
    return 1;
  }
  pthread_mutex_lock(&a);
  return 0;
}

void *w(void *q) {
  pthread_mutex_lock(&a);
  x = 1;
  pthread_mutex_unlock(&a);
  pthread_mutex_lock(&b);
  y = 1;
  pthread_mutex_unlock(&b);
  return 0;
}

int main(void) {
  pthread_create(&t, 0, w, 0);
  take(1);
  x = 2;
  y = 2;
  return 0;
}
