void work(char *p) {
  switch (p) {
  default:
    ;
  }
}
