int x;
pthread_t t;
int tick(int *p);

void *w(void *q) {
  x = 1;
  return 0;
}

int main(void) {
  pthread_create(&t, 0, w, 0);
  return tick(&x);
}
