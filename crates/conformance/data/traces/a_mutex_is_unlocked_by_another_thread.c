pthread_mutex_t m;
pthread_cond_t v;
void *w(void *q) {
  pthread_mutex_unlock(&m);
  return 0;
}
int main(void) {
  pthread_t t;
  pthread_mutex_lock(&m);
  pthread_create(&t, 0, w, 0);
  pthread_mutex_unlock(&m);
  pthread_cond_wait(&v, &m);
  return 0;
}
