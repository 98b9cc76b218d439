int f(void);

int g(void) {
  return sizeof(f()) + f();
}
