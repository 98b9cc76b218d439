void work(int n, int *p) {
  n = p + 1;
}
