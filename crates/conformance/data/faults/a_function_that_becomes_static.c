int get(void);
static int get(void) {
  return 1;
}
