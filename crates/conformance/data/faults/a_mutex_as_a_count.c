pthread_mutex_t m;
int work(int n) {
  return n << m;
}
