int work(void) {
  int n = (void)0;
  return n;
}
