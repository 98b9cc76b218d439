int same(int *p, char *q) {
  return p != q;
}
