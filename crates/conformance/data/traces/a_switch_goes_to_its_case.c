int f(int n) {
  switch (n) {
  case 1:
    return 1;
  case 2:
    n = 5;
  default:
    n = n + 1;
    break;
  case -1:
    return 0;
  }
  return n;
}
int a[7];
int main(void) {
  a[f(1)] = 0;
  a[f(2)] = 0;
  a[f(4)] = 0;
  a[f(-1)] = 0;
  return 0;
}
