pthread_t t;

void add(int by) {
  static pthread_mutex_t lock = PTHREAD_MUTEX_INITIALIZER;
  static int n;
  pthread_mutex_lock(&lock);
  n += by;
  pthread_mutex_unlock(&lock);
}

void *w(void *q) {
  add(1);
  return 0;
}

int main(void) {
  pthread_create(&t, 0, w, 0);
  add(2);
  add(3);
  return 0;
}
