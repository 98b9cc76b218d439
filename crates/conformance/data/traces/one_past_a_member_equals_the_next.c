struct pair { int a, b; } s;
int n[2];
int main(void) {
  n[&s.a + 1 == &s.b] = 0;
  n[&s.a + 1 != &s.a] = 0;
  n[&s.b == &s.a] = 0;
  n[(void *)(&s.a + 1) == (void *)&s.b] = 0;
  n[(void *)&s == (void *)&s.a] = 0;
  int *p = &s.a + 1;
  n[p - 1 == &s.a] = 0;
  n[p - &s.a] = 0;
  s.b = 1;
  return *p;
}
