pthread_t t;
void work(void) {
  t = 0;
}
