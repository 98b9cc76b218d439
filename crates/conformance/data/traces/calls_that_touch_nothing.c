int a[9];
int main(void) {
  a[rand() & 7] = 0;
  a[putchar(65) & 7] = 0;
  return a[atoi("x")];
}
