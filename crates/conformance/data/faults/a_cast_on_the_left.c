void work(int n) {
  (long)n = 1;
}
