void work(int n) {
  free(n);
}
