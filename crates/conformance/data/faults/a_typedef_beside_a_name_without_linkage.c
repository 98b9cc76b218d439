void work(void) {
  typedef int t;
  extern int t;
}
