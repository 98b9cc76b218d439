pthread_mutex_t all[2];
void work(void) {
  all[1];
}
