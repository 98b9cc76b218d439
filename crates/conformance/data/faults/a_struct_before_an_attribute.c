struct pair { int a; } p;
void work(pthread_mutex_t *m) {
  pthread_mutex_init(m, p);
}
