extern int v[];
void *w(void *q);

int main(void) {
  pthread_t t;
  pthread_create(&t, 0, w, 0);
  v[1] = 2;
  return 0;
}
