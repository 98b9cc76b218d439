int work(int n) {
  char buffer[n];
  return n;
}
