int x, y;
pthread_t t;

void *w(void *q) {
  x = 1;
  y = 1;
  return 0;
}

int main(void) {
  pthread_create(&t, 0, w, 0);
  return x+++y;
}
