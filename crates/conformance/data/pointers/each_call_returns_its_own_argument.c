int x, y, z;
pthread_t t;

int *same(int *p) {
  return p;
}

int *twice(int *p) {
  return same(same(p));
}

void *w(void *q) {
  *same(&x) = 1;
  *twice(&z) = 1;
  return 0;
}

int main(void) {
  pthread_create(&t, 0, w, 0);
  *same(&y) = 2;
  *twice(&y) = 2;
  *twice(&z) = 2;
  return 0;
}
