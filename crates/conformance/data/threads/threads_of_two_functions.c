int n, k;
pthread_t t, u;

void *writer(void *q) {
  n = 1;
  return 0;
}

void *reader(void *q) {
  k = n;
  return 0;
}

int main(void) {
  pthread_create(&t, 0, writer, 0);
  pthread_create(&u, 0, reader, 0);
  return 0;
}
