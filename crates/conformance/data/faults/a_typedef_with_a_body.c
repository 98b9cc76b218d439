typedef int work(void) {
  return 0;
}
