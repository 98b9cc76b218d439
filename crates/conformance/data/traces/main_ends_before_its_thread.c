int n;
void stop(void) {
  pthread_exit(0);
}
void *w(void *q) {
  n = 1;
  stop();
  return 0;
}
int main(void) {
  pthread_t t;
  pthread_create(&t, 0, w, 0);
  pthread_exit(0);
}
