void *work(unsigned key) {
  return pthread_getspecific(key);
}
