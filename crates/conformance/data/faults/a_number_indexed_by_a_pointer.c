int first(int *p) {
  return 0[p];
}
