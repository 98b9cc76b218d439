void work(void) {
  printf("%n", missing);
}
