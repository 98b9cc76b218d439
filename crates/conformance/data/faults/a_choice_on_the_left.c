void work(int c, int a, int b) {
  c ? a : b = 0;
}
