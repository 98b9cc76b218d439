int a[32];
int main(void) {
  int x = 6;
  int y = 2;
  a[x * y] = 0;
  a[x / y] = 0;
  a[x % y] = 0;
  a[x + y] = 0;
  a[x - y] = 0;
  a[x << y] = 0;
  a[x >> y] = 0;
  a[x < y] = 0;
  a[x > y] = 0;
  a[x <= y] = 0;
  a[x >= y] = 0;
  a[x == y] = 0;
  a[x != y] = 0;
  a[x & y] = 0;
  a[x ^ y] = 0;
  a[x | y] = 0;
  return 0;
}
