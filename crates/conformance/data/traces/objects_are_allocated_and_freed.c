struct pair {
  int x;
  int y;
};
int main(void) {
  struct pair *p = malloc(sizeof(struct pair));
  int *a = calloc(3, sizeof(int));
  p->y = a[2];
  free(a);
  free(p);
  free(0);
  return 0;
}
