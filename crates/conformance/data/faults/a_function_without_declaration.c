void work(void) {
  prepare(3);
}
