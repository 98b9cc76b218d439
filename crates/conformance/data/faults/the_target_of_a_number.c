int work(long n) {
  return !*n;
}
