pthread_mutex_t m;
void work(void) {
  m = PTHREAD_MUTEX_INITIALIZER;
}
