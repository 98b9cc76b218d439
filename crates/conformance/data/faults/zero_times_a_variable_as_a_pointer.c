void work(int n) {
  int *p = 0 * n;
}
