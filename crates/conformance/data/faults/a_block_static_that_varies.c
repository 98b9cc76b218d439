int work(int n) {
  static int first = n;
  return first;
}
