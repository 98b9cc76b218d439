void work(pthread_t *t) {
  pthread_create(t, 1, 2, 0);
}
