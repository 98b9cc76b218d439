int n;
void *w(void *q) {
  int k = n;
  return 0;
}
int main(void) {
  pthread_t t;
  pthread_create(&t, 0, w, 0);
  return n;
}
