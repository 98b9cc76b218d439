static int half(int n) {
  return n / 2;
}
static int half(int n) {
  return n / 2;
}
