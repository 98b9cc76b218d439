int x, y;

void *w(void *q) {
  int *p = q;
  *p = 1;
  return 0;
}

void run(int *p) {
  pthread_t t;
  pthread_create(&t, 0, w, p);
}

int main(void) {
  run(&x);
  run(&y);
  x = 2;
  return 0;
}
