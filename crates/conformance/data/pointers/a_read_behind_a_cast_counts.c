int x, y, z;
pthread_t t;

void *w(void *q) {
  x = 1;
  y = 1;
  z = 1;
  return 0;
}

int main(void) {
  pthread_create(&t, 0, w, 0);
  (void)z;
  return (long)x == (char)(y);
}
