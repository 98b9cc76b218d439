int main(void) {
  pthread_mutex_t m;
  pthread_cond_t v;
  pthread_mutex_init(&m, 0);
  pthread_cond_init(&v, 0);
  pthread_cond_signal(&v);
  pthread_mutex_lock(&m);
  pthread_mutex_unlock(&m);
  pthread_cond_destroy(&v);
  pthread_mutex_destroy(&m);
  pthread_cond_signal(&v);
  return 0;
}
