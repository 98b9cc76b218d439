int n;
void work(void) {
  static int n;
  static int n;
}
