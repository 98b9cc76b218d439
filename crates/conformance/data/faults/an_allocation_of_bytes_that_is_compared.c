int work(char *p) {
  return p == malloc(5);
}
