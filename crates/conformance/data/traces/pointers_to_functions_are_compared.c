int a[2];
int f(void) { return 1; }
int g(void) { return 0; }
int (*none)(void);
int main(void) {
  int (*p)(void) = f;
  a[p == f] = 0;
  a[p == &g] = 0;
  a[p != 0] = 0;
  a[!p] = 0;
  a[!none] = 0;
  a[(_Bool)g] = 0;
  a[(_Bool)none] = 0;
  p = (int (*)(void))g;
  a[p()] = 0;
  a[(int (*)(void))0 == none] = 0;
  (void)p;
  return none();
}
