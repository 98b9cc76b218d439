void work(void) {
  (*puts)("x");
}
