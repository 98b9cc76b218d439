int a, b, c;
pthread_t t;

void *w(void *q) {
  a = 1;
  b = 1;
  c = 1;
  return 0;
}

int start(void) {
  pthread_create(&t, 0, w, 0);
  return 0;
}

int main(void) {
  return (a, b) && start() || c;
}
