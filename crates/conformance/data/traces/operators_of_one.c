int a[8];
int main(void) {
  int x = -3;
  a[-x] = 0;
  a[~x] = 0;
  a[!x] = 0;
  a[+x + 4] = 0;
  return 0;
}
