static void *w(void *);
int main(void) {
  pthread_t t[2];
  pthread_create(t, 0, (&(w)), "first");
  pthread_create(t + 1, 0, w, t);
  return 0;
}
static void *w(void *q) {
  return 0;
}
