pthread_mutex_t m;
void work(void) {
  if (m)
    ;
}
