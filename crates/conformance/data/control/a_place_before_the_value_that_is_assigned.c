int v[2], i, j;
pthread_t t;

void *w(void *q) {
  v[0] = 1;
  i = 1;
  j = 1;
  return 0;
}

int start(void) {
  pthread_create(&t, 0, w, 0);
  return 0;
}

int main(void) {
  v[i] = start() + j;
  return 0;
}
