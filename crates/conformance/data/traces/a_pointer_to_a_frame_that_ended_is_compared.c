int a[2];
int *kept;
void keep(void) { int x; kept = &x; }
int main(void) {
  keep();
  int *p = kept;
  keep();
  a[p == kept] = 0;
  a[p != kept] = 0;
  a[p == p] = 0;
  *kept = 1;
  return 0;
}
