struct pair { int a; } p, q;
int work(void) {
  return p == q;
}
