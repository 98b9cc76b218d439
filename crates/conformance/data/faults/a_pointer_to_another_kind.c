void work(int *p, char *c) {
  c = p;
}
