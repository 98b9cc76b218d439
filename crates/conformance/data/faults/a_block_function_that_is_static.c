void work(void) {
  static int inner(void);
}
