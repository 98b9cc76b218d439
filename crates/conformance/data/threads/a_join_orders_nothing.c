int n;

void *w(void *q) {
  n = 1;
  return 0;
}

int main(void) {
  pthread_t t[2];
  for (int i = 0; i < 2; i++)
    pthread_create(&t[i], 0, w, 0);
  for (int i = 0; i < 2; i++)
    pthread_join(t[i], 0);
  n = 2;
  return 0;
}
