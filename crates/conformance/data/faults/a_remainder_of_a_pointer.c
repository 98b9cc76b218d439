int work(int *p) {
  return 3 + p % 2;
}
