int n;
int k;
pthread_mutex_t m;
pthread_t t;
void *w(void *a) {
  pthread_mutex_lock(&m);
  n = 1;
  pthread_mutex_unlock(&m);
  k = 1;
  return 0;
}
int main(void) {
  pthread_create(&t, 0, w, 0);
  pthread_mutex_lock(&m);
  n = 2;
  pthread_mutex_unlock(&m);
  k = 2;
  return 0;
}
