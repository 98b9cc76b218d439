int n;
void work(void) {
  int n = 1;
  extern int n;
}
