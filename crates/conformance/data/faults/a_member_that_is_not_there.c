struct pair { int a, b; } p;
int work(void) {
  return p.c;
}
