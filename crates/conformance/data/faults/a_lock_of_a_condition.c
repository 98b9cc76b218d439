pthread_cond_t c;
void work(void) {
  pthread_mutex_lock(&c);
}
