void work(void) {
  extern int row[] = {1};
}
