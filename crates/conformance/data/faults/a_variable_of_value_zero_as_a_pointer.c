void work(void) {
  int zero = 0;
  int *p = zero;
}
