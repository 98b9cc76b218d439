int *last;
int f(int n) {
  last = &n;
  if (n)
    f(n - 1);
  n = 9;
  return *last;
}
int main(void) {
  return f(1);
}
