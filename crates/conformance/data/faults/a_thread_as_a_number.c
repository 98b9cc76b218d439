pthread_t t;
long work(void) {
  return (long)t;
}
