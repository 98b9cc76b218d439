void *w(void *q) {
  int *p = q;
  p[0] = 1;
  return 0;
}

int main(void) {
  pthread_t t, u;
  int v[4];
  pthread_create(&t, 0, w, v);
  pthread_create(&u, 0, w, &v[2]);
  return 0;
}
