void work(char *format) {
  printf(format, 1);
}
