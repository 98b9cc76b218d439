static pthread_t same(pthread_t t) {
  pthread_t all[2] = {t}, *p = all;
  p[1] = (pthread_t)*p;
  (void)t;
  t, all[0];
  return all[1];
}
int main(void) {
  return !pthread_equal(same(pthread_self()), pthread_self());
}
