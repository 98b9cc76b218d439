int x, y, *p = &y, **pp = &p;
pthread_t t;

void *w(void *q) {
  *p = 1;
  return 0;
}

int main(void) {
  *pp = &x;
  pthread_create(&t, 0, w, 0);
  x = 2;
  **pp = 2;
  return 0;
}
