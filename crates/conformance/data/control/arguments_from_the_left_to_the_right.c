int a, b;
pthread_t t;

void *w(void *q) {
  a = 1;
  b = 1;
  return 0;
}

int start(void) {
  pthread_create(&t, 0, w, 0);
  return 0;
}

int sum(int x, int y, int z) {
  return x + y + z;
}

int main(void) {
  return sum(a, start(), b);
}
