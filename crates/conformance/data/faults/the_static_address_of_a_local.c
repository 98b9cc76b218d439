void work(void) {
  int n;
  static int *p = &n;
}
