pthread_mutex_t m;
int work(void) {
  return m == 0;
}
