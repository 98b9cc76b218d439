int work(void) {
  return sizeof sigsetjmp;
}
