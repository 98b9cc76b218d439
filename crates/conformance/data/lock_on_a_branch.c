int n;
pthread_mutex_t m;
pthread_t t;
void *w(void *q) {
  pthread_mutex_lock(&m);
  n = n + 1;
  pthread_mutex_unlock(&m);
  return 0;
}
void start(void) {
  pthread_create(&t, 0, w, 0);
}
int main(void) {
  start();
  if (n == 0) {
    pthread_mutex_lock(&m);
  }
  n = 2;
  return 0;
}
