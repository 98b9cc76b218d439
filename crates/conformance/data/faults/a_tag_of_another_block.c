struct point { int x; };
int main(void) {
  struct point { char *y; } inner = {0};
  return inner.y != 0;
}
