int *pick(int c, int *p) {
  return c ? p : 5;
}
