void *w(void *q) {
  int k;
  int *p = &k;
  *p = 1;
  return 0;
}

int main(void) {
  pthread_t t, u;
  pthread_create(&t, 0, w, 0);
  pthread_create(&u, 0, w, 0);
  return 0;
}
