int work(pthread_t t) {
  void **none = 0;
  return pthread_join(t, none);
}
