pthread_mutex_t a, b;
int x, y, z, c;
pthread_t t;

void one(void) {
  x = 1;
}

void other(void) {
  pthread_mutex_lock(&a);
  y = 1;
  pthread_mutex_unlock(&a);
}

void never_called(void) {
  z = 1;
}

void (*named)(void) = never_called;

void *w(void *q) {
  void (*set)(void) = c ? one : other;
  pthread_mutex_lock(&b);
  set();
  pthread_mutex_unlock(&b);
  return 0;
}

int main(void) {
  pthread_create(&t, 0, w, 0);
  x = 2;
  pthread_mutex_lock(&a);
  y = 2;
  pthread_mutex_unlock(&a);
  z = 2;
  return 0;
}
