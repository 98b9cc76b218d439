pthread_t none;
pthread_t t;
void *w(void *q) {
  pthread_join(pthread_self(), 0);
  return 0;
}
void *v(void *q) {
  pthread_detach(none);
  return 0;
}
void *u(void *q) {
  return 0;
}
int main(void) {
  pthread_t s;
  pthread_create(&t, 0, w, 0);
  pthread_create(&s, 0, v, 0);
  pthread_create(&s, 0, u, 0);
  pthread_join(s, 0);
  pthread_join(s, 0);
  return 0;
}
