struct pair { int a, b; } p, *q = &p;
static int sum(struct pair *p) {
  return p->a + p->b;
}
int main(void) {
  struct pair other = {1, -1};
  p;
  (void)*q;
  p, other;
  return sum(&other) + sum(q);
}
