int x;
pthread_t t;
void tick(int *p);

void *w(void *q) {
  x = 1;
  return 0;
}

int main(void) {
  pthread_create(&t, 0, w, 0);
  tick(&x);
  return 0;
}
