pthread_t t;
void *work(void) {
  void *result;
  pthread_join(t, &result);
  return result;
}
