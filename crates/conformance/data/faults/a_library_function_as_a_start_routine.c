void work(pthread_t *t) {
  pthread_create(t, 0, malloc, 0);
}
