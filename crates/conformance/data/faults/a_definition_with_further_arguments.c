int none;
static int sum(int n, ...) {
  return n;
}
