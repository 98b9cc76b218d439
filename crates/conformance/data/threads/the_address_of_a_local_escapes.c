void *w(void *q) {
  int *p = q;
  *p = 1;
  return 0;
}

int main(void) {
  pthread_t t;
  int shared = 0, own = 0, slot = 0;
  int *at = &own;
  pthread_create(&t, 0, w, &shared);
  shared = 2;
  *at = 2;
  slot = 2;
  return slot;
}
