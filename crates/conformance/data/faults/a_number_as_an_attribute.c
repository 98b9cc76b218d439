pthread_cond_t c;
void work(void) {
  pthread_cond_init(&c, 1);
}
