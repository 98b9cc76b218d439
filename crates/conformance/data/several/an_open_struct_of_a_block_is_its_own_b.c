void f(void) {
  struct s;
  extern struct s *x;
}
