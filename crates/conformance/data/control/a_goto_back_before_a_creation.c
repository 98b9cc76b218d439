int n, k;
pthread_t t;

void *w(void *q) {
  n = 1;
  k = 1;
  return 0;
}

int main(void) {
  int turns = 0;
  n = 2;
again:
  k = 2;
  pthread_create(&t, 0, w, 0);
  if (turns++ < 2)
    goto again;
  return 0;
}
