int o1, o2;
void *w(void *q) {
  int *p = q;
  *p = 1;
  return 0;
}
int main(void) {
  pthread_t t;
  pthread_create(&t, 0, w, &o1);
  pthread_t u;
  pthread_create(&u, 0, w, &o2);
  return 0;
}
