long between(int (*p)[2], int *q) {
  return p - q;
}
