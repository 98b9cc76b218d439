void work(int *p) {
  p *= 2;
}
