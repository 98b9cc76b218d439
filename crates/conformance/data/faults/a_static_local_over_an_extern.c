int n;
void work(void) {
  extern int n;
  static int n;
}
