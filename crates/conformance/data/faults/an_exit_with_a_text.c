void work(void) {
  exit("failed");
}
