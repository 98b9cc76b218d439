void work(void *p) {
  (int (*)[])p;
}
