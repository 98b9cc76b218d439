pthread_mutex_t a, b;
int x, y, c;
pthread_t t;

void one(void) {
  pthread_mutex_lock(&a);
}

void both(void) {
  pthread_mutex_lock(&a);
  pthread_mutex_lock(&b);
}

void *w(void *q) {
  pthread_mutex_lock(&a);
  x = 1;
  pthread_mutex_unlock(&a);
  pthread_mutex_lock(&b);
  y = 1;
  pthread_mutex_unlock(&b);
  return 0;
}

int main(void) {
  void (*take)(void) = c ? one : both;
  pthread_create(&t, 0, w, 0);
  take();
  x = 2;
  y = 2;
  return 0;
}
