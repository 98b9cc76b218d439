struct pair {
  int left, right;
} both;
int sum(void) {
  return both.left + right;
}
