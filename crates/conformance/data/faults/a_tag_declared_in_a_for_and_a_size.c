int main(void) {
  int n = sizeof(enum { one = 1, two }) * two;
  for (struct pair { int a; } *p = 0; p; p = 0)
    n = p->a;
  struct pair { long b; } v = {n - 8};
  return v.b;
}
