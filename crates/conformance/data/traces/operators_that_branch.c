int a[4];
int main(void) {
  int x = 2;
  a[x && 0] = 0;
  a[0 && x] = 0;
  a[0 || x] = 0;
  a[x || 0] = 0;
  a[x ? 3 : 1] = 0;
  return (x, 0);
}
