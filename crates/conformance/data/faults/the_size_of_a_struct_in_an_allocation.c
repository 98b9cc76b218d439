struct pair { int a, b; };
int main(void) {
  struct pair *p = malloc(sizeof *p), *q = malloc(3 * sizeof(struct pair)), *all = calloc(2, sizeof *p);
  pthread_mutex_t *m = malloc(sizeof(pthread_mutex_t));
  free(p);
  return sizeof(struct pair *) + sizeof p->a + sizeof(pthread_t) - 20 + (q == all) + (m == 0) * 0;
}
