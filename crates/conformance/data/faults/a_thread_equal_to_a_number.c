int work(pthread_t t) {
  return pthread_equal(t, 0);
}
