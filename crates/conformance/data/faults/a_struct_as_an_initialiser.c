struct pair { int a, b; } p;
int main(void) {
  struct pair q = p;
  return q.a;
}
