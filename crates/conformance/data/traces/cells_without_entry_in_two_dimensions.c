struct cell { int x; int *p; };
int main(void) {
  int a[2][3] = { { 1 }, { 2, 3 } };
  struct cell c[2][2] = { { { 4 } } };
  return c[1][1].p == 0 && a[1][2] == 0;
}
