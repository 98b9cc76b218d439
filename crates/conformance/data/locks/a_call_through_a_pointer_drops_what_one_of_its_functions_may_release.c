pthread_mutex_t a, b;
int x, y, z, c;
pthread_t t;

void keep(void) {
}

void release(void) {
  pthread_mutex_unlock(&a);
}

void *w(void *q) {
  pthread_mutex_lock(&a);
  x = 1;
  y = 1;
  pthread_mutex_unlock(&a);
  pthread_mutex_lock(&b);
  z = 1;
  pthread_mutex_unlock(&b);
  return 0;
}

int main(void) {
  void (*either)(void) = c ? keep : release;
  void (*none)(void) = 0;
  pthread_create(&t, 0, w, 0);
  pthread_mutex_lock(&a);
  pthread_mutex_lock(&b);
  none();
  x = 2;
  either();
  y = 2;
  z = 2;
  return 0;
}
