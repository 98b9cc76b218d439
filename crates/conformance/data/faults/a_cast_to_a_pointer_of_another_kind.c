void work(int *p) {
  (char *)p;
}
