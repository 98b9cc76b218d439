int a[2];
void *w(void *q) {
  a[0] = 1;
  a[1] = 1;
  return 0;
}
int main(void) {
  pthread_t t;
  pthread_create(&t, 0, w, 0);
  a[1] = 2;
  return 0;
}
