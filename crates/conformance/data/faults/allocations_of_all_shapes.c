int main(void) {
  int n = getchar(), *p = malloc(sizeof n), *q = malloc(sizeof(int) * (n + 1)), *r = malloc(2 * n * sizeof *p);
  char *bytes = malloc(n + 5), *more;
  unsigned char *last = (unsigned char *)malloc('a');
  more = malloc(3);
  long (*rows)[2] = calloc(n, sizeof(long[2]));
  malloc(sizeof(int));
  return p == q || r == 0 || bytes == more || last == 0 || rows == 0;
}
