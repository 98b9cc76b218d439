void work(void) {
  pthread_mutex_unlock(1);
}
