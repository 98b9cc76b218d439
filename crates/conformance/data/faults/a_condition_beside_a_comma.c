pthread_cond_t c;
int work(void) {
  return 1 + (c, 2);
}
