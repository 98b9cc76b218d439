int is_fifth(int *p) {
  return p == 5;
}
