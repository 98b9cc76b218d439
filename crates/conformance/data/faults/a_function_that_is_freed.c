void work(void) {
  free(work);
}
