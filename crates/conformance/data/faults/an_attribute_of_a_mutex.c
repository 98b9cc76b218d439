pthread_mutexattr_t *kind;
int work(pthread_mutex_t *m) {
  return pthread_mutex_init(m, kind);
}
