int *shown;

void *w(void *q) {
  *shown = 1;
  return 0;
}

void run(int n, int k) {
  pthread_t t;
  shown = &n;
  pthread_create(&t, 0, w, 0);
  n = k;
}

int main(void) {
  run(1, 2);
  return 0;
}
