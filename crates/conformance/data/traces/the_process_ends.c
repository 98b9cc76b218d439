void *w(void *q) {
  exit(0);
  return 0;
}
int main(void) {
  pthread_t t;
  pthread_create(&t, 0, w, 0);
  abort();
}
