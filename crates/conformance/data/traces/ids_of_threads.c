int a[2];
pthread_t none;
pthread_t t;
void *w(void *q) {
  a[pthread_equal(pthread_self(), none)] = 0;
  a[pthread_equal(none, none)] = 0;
  a[pthread_equal(pthread_self(), t)] = 0;
  return 0;
}
int main(void) {
  pthread_create(&t, 0, w, 0);
  pthread_detach(t);
  a[pthread_equal(pthread_self(), t)] = 0;
  pthread_join(t, 0);
  return 0;
}
