int work(int n) {
  char n;
  return n;
}
