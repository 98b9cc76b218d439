void work(int n) {
  n++ = 1;
}
