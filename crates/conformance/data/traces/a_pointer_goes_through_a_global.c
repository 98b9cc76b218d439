int x, y;
int *g;
void set(int *p) {
  g = p;
}
void *w(void *q) {
  *g = 1;
  return 0;
}
int main(void) {
  pthread_t t;
  set(&x);
  pthread_create(&t, 0, w, 0);
  y = 2;
  x = 3;
  return 0;
}
