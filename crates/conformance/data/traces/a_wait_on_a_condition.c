pthread_mutex_t m;
pthread_cond_t v;
int ready;
void *w(void *q) {
  pthread_mutex_lock(&m);
  ready = 1;
  pthread_cond_signal(&v);
  pthread_cond_broadcast(&v);
  pthread_mutex_unlock(&m);
  return 0;
}
int main(void) {
  pthread_t t;
  pthread_create(&t, 0, w, 0);
  pthread_mutex_lock(&m);
  while (!ready)
    pthread_cond_wait(&v, &m);
  pthread_mutex_unlock(&m);
  return 0;
}
