void work(pthread_t *t) {
  pthread_create(t, 0, pthread_mutex_trylock, 0);
}
