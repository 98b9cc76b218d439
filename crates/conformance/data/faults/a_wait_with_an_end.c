pthread_cond_t c;
pthread_mutex_t m;
void work(void *until) {
  pthread_cond_wait(&c, &m);
  pthread_cond_timedwait(&c, &m, until);
}
