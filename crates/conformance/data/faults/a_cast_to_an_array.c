void work(int *p) {
  (int[2])p;
}
