pthread_mutex_t m;
void work(int n) {
  n = m;
}
