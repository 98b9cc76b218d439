void f(void) {
  int puts(int);
}
