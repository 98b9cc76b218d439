int a[2];
pthread_t t, u;
void *w(void *q) { return 0; }
int main(void) {
  pthread_create(&t, 0, w, 0);
  pthread_t v = t;
  u = v;
  a[pthread_equal(u, (pthread_t)t)] = 0;
  v = u = pthread_self();
  a[pthread_equal((pthread_t)v, t)] = 0;
  a[pthread_equal(v, u)] = 0;
  (void)(pthread_t)u;
  u = (pthread_t)t;
  pthread_join(u, 0);
  pthread_t never;
  u = never;
  return 0;
}
