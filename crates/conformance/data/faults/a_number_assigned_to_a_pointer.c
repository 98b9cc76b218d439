void work(char *p) {
  p = 5;
}
