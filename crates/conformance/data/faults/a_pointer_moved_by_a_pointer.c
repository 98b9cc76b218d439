void work(int *p, int *q) {
  p += q;
}
