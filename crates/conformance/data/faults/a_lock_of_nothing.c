void work(void) {
  pthread_mutex_lock();
}
