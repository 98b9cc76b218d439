int x, y, *last;
pthread_t t;

int *through(int *p) {
  last = p;
  return last;
}

void *w(void *q) {
  *through(&x) = 1;
  return 0;
}

int main(void) {
  pthread_create(&t, 0, w, 0);
  *through(&y) = 2;
  return 0;
}
