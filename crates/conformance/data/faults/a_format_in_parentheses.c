void work(void) {
  printf(("done"));
}
