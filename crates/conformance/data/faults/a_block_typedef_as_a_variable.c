void work(void) {
  typedef int t;
  t n = 1;
  int t;
}
