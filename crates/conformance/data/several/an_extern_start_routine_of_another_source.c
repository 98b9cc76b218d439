void *w(void *q);
int main(void) {
  pthread_t t;
  return pthread_create(&t, 0, w, 0);
}
