void work(pthread_t *t) {
  pthread_join(t, 0);
}
