int n, c;
pthread_t t;

void *w(void *q) {
  n = 1;
  return 0;
}

int start(void) {
  pthread_create(&t, 0, w, 0);
  return 0;
}

int main(void) {
  if (c) if (start()) ; else n = 2;
  return 0;
}
