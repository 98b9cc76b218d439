pthread_mutex_t m;
void *w(void *q) {
  pthread_mutex_init(&m, 0);
  return 0;
}
int main(void) {
  pthread_t t;
  pthread_mutex_lock(&m);
  pthread_create(&t, 0, w, 0);
  pthread_mutex_destroy(&m);
  return 0;
}
