pthread_mutex_t m;
pthread_mutex_t *work(void) {
  return m;
}
