int a[12];
void *w(void *q) {
  return q;
}
int main(void) {
  pthread_t t;
  a[pthread_create(&t, 0, w, 0)] = 1;
  pthread_join(t, 0);
  return 0;
}
