int n, k;
pthread_t t;

void *w(void *q) {
  n = 1;
  k = 1;
  return 0;
}

int start(void) {
  pthread_create(&t, 0, w, 0);
  return 0;
}

int main(void) {
  n += start();
  k += 1;
  return 0;
}
