void work(void) {
  printf("%ln", 5);
}
