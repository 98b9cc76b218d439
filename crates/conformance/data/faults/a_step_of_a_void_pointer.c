void work(void *p) {
  ++p;
}
