char *work(int n) {
  return (malloc(n));
}
