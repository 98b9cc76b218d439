struct s { int n; };
struct s x, y;
void *any, *other;
void *w(void *q);

int main(void) {
  pthread_t t;
  any = &x;
  other = &y;
  pthread_create(&t, 0, w, 0);
  x.n = 2;
  y.n = 2;
  return 0;
}
