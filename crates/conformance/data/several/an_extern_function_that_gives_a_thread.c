pthread_t start(void);
void work(pthread_t t) {
  t = start();
}
