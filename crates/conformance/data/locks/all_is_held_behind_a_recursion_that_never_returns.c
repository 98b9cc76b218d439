pthread_mutex_t m;
int n;
pthread_t t;

void *w(void *q) {
  pthread_mutex_lock(&m);
  n = 1;
  pthread_mutex_unlock(&m);
  return 0;
}

void descend(void) {
  descend();
}

int main(void) {
  pthread_create(&t, 0, w, 0);
  descend();
  n = 2;
  return 0;
}
