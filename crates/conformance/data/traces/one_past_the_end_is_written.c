int a[3];
int main(void) {
  a[3] = 1;
  return 0;
}
