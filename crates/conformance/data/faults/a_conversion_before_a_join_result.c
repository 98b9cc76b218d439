pthread_t t;
void *result;
void work(int *p) {
  *(char **)(void *)p = p;
  pthread_join(t, &result);
}
