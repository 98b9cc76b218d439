int x, y, z;
pthread_t t;

void *w(void *q) {
  int *p = q;
  *p = 1;
  return 0;
}

int main(void) {
  pthread_create(&t, 0, w, &x);
  pthread_create(&t, 0, w, &y);
  pthread_create(&t, 0, w, &z);
  pthread_create(&t, 0, w, &z);
  return 0;
}
