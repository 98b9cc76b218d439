void work(void) {
  static int row[] = {1}, all[];
}
