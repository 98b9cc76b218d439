pthread_cond_t c;
void work(void) {
  pthread_cond_wait(&c);
}
