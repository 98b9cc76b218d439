int a[2];
int n;
_Bool yes;
int main(void) {
  int *p = &n;
  int *none = 0;
  _Bool b = p;
  a[b] = 0;
  b = none;
  a[b] = 0;
  a[(_Bool)(p + 1)] = 0;
  a[(_Bool)(void *)none] = 0;
  a[!p] = 0;
  a[!none] = 0;
  _Bool *q = &yes;
  *q = 256;
  a[*q] = 0;
  return 0;
}
