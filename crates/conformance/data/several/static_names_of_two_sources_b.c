static char n;

static void set(void) {
  n = 1;
}

void set_other(void) {
  set();
}
