int work(pthread_t t) {
  return t == pthread_self();
}
