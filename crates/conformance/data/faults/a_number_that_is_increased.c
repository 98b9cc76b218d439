void work(void) {
  5 += 5;
}
