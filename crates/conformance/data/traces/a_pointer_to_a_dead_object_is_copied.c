int a[2];
int *last;
int main(void) {
  int *p = malloc(2 * sizeof(int));
  int *q = p + 1;
  last = p;
  free(p);
  int *r = p;
  last = r;
  a[last == p] = 0;
  a[r == q] = 0;
  a[r + 1 == q] = 0;
  a[q - r] = 0;
  a[q < r] = 0;
  a[r != 0] = 0;
  a[!r] = 0;
  a[r == a] = 0;
  void *v = r;
  a[(int *)v == r] = 0;
  return *r;
}
