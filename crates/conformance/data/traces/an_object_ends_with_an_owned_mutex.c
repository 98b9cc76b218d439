int main(void) {
  pthread_mutex_t *p = calloc(2, sizeof(pthread_mutex_t));
  pthread_mutex_lock(p + 1);
  free(p);
  return 0;
}
