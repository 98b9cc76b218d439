int f(int n) {
  if (n)
    return 1;
}
int main(void) {
  f(0);
  return f(0) + 1;
}
