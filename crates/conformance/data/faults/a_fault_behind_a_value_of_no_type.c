int main(void) {
  int int n = n;
  return n;
}
