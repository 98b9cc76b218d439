void work(void) {
  pthread_mutex_init(1, 1);
}
