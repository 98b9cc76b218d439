int a[256];
int main(void) {
  int x = 258;
  a[(unsigned char)x] = 0;
  x = (signed char)255;
  a[x + 1] = 0;
  a[(_Bool)x] = 0;
  return 0;
}
