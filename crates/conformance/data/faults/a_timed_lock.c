pthread_mutex_t m;
int work(void *until) {
  return pthread_mutex_timedlock(&m, until);
}
