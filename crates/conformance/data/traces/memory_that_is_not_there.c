int main(void) {
  int n = 0;
  int *p = malloc(sizeof(int));
  int *q = calloc(n, sizeof(int));
  if (p)
    return 1;
  if (q)
    return 2;
  return 0;
}
