int f(void);

int h(void) {
  return f();
}
