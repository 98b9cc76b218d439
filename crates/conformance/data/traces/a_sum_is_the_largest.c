int main(void) {
  int x = 2147483646;
  return x + 1;
}
