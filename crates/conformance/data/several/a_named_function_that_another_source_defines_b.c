void tick(int *p) {
  *p = 2;
}
