void *w(void *q) {
  int *p = q;
  *p = 1;
  return 0;
}

int main(void) {
  pthread_t t;
  int *many = malloc(4 * sizeof(int));
  int *one = malloc(sizeof(int));
  long *zeroes = calloc(2, sizeof(long));
  char *bytes = malloc(10);
  pthread_create(&t, 0, w, many);
  pthread_create(&t, 0, w, one);
  many[3] = 2;
  *one = 2;
  zeroes[1] = 2;
  bytes[9] = 2;
  return 0;
}
