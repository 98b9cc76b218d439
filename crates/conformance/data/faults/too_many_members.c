struct pair { int a, b; };
int main(void) {
  struct pair p = {1, 2, 3};
  return p.a;
}
