struct point { int x; };
int main(void) {
  struct point { int y; } inner;
  inner.y = 1;
  return 0;
}
struct point { int x; };
