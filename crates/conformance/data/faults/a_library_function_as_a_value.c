void work(void) {
  void (*give)(void *) = free;
  give(0);
}
