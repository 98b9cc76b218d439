int x, y, z, *at;
pthread_t t;

void keep(int *p) {
  at = p;
}

void *w(void *q) {
  *at = 1;
  return 0;
}

int main(void) {
  keep(&x);
  pthread_create(&t, 0, w, 0);
  keep(&y);
  x = 2;
  y = 2;
  z = 2;
  return 0;
}
