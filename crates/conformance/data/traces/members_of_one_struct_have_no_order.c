struct pair { int a, b; } s;
int main(void) {
  return &s.a + 1 <= &s.b;
}
