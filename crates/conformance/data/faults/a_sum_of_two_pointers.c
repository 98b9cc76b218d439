int *sum(int *p, int *q) {
  return p + q;
}
