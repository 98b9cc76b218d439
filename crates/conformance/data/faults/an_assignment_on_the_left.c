void work(int a, int b) {
  (a = b) += 1;
}
