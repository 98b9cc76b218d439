void work(int n) {
  n = work;
}
