pthread_mutex_t m;
void work(void) {
  pthread_mutex_lock(m);
}
