int n;
pthread_t t;

void *w(void *q) {
  n = 1;
  return 0;
}

void start(void) {
  pthread_create(&t, 0, w, 0);
}

void (*begin)(void) = start;

int main(void) {
  n = 2;
  begin();
  n = 3;
  return 0;
}
