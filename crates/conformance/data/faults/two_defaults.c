int work(int n) {
  switch (n) {
  default:
    n = 1;
  case 0:
  default:
    n = 2;
  }
  return n;
}
