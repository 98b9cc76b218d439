struct outer { struct inner { int a; } i; } o;
struct inner other;
enum kind { first, second } next(enum kind k) {
  return second;
}
static int value(struct { int a; } *p, enum { low, high } e) {
  return p ? low : high;
}
int main(void) {
  return o.i.a + other.a + next(first) - value(0, 0);
}
