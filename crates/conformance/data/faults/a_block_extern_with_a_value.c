void work(void) {
  extern int n = 5;
}
