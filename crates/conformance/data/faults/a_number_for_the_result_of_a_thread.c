int work(pthread_t t) {
  return pthread_join(t, 8);
}
