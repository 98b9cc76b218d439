void work(void) {
  7 = 8;
}
