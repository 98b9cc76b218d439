pthread_mutex_t m;
void work(pthread_t *t) {
  pthread_create(t, 0, m, 0);
}
