pthread_mutex_t m;
void work(void) {
  m = 0;
}
