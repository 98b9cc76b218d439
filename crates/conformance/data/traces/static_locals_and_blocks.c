int count(void) {
  static int n;
  n = n + 1;
  return n;
}
int a[3];
int main(void) {
  count();
  a[count()] = 0;
  return 0;
}
