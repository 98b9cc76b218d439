pthread_mutex_t a;
void work(pthread_mutex_t *b) {
  a = *b;
}
