void put(int *p) {
  *p = 1;
}
int main(void) {
  int x;
  int a[3] = { 4 };
  put(&x);
  return x + a[2];
}
