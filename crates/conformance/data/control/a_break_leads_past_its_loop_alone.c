int k, l, n, c;
pthread_t t;

void *w(void *q) {
  k = 1;
  l = 1;
  n = 1;
  return 0;
}

void forever(void) {
  for (;;)
    k = 2;
  n = 2;
}

void often(void) {
  for (;;) {
    if (c)
      break;
  }
  l = 2;
}

int main(void) {
  pthread_create(&t, 0, w, 0);
  often();
  forever();
  return 0;
}
