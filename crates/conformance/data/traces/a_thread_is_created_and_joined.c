int n;
void *w(void *q) {
  int *p = q;
  *p = 2;
  return 0;
}
int main(void) {
  pthread_t t;
  pthread_create(&t, 0, w, &n);
  pthread_join(t, 0);
  return n;
}
