int round(int n);
char *work(void) {
  return malloc(round(sizeof(int)));
}
