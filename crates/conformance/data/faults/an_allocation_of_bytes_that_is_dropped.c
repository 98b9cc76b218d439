void work(void) {
  malloc(5);
}
