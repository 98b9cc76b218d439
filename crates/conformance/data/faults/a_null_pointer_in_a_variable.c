pthread_mutex_t m;
void work(void) {
  void *none = 0;
  pthread_mutex_init(&m, none);
}
