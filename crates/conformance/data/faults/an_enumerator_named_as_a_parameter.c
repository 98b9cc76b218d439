int work(int n) {
  enum { n };
  return n;
}
