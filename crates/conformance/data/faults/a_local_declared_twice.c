void work(void) {
  int n;
  { int n; }
  int n;
}
