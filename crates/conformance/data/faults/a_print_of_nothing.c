void work(void) {
  printf();
}
