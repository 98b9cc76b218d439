pthread_mutex_t m = PTHREAD_MUTEX_INITIALIZER;
pthread_cond_t more = PTHREAD_COND_INITIALIZER;
int ready;
pthread_t t;

void *w(void *q) {
  pthread_mutex_lock(&m);
  ready = 1;
  pthread_cond_signal(&more);
  pthread_mutex_unlock(&m);
  return 0;
}

void sleep_until(pthread_cond_t *c, pthread_mutex_t *l) {
  pthread_cond_wait(c, l);
}

int main(void) {
  pthread_create(&t, 0, w, 0);
  pthread_mutex_lock(&m);
  while (!ready)
    sleep_until(&more, &m);
  ready = 0;
  pthread_mutex_unlock(&m);
  return 0;
}
