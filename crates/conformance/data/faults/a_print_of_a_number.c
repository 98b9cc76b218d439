void work(void) {
  printf(5);
}
