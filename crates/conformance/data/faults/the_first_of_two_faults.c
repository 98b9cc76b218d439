void work(int *p) {
  p = 1;
  1 = missing;
}
