int main(void) {
  pthread_mutex_t m;
  pthread_mutex_lock(&m);
  return 0;
}
