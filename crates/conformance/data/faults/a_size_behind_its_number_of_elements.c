int main(void) {
  int *p = malloc(3 * sizeof(int)), *q = malloc(sizeof(int) * 3);
  return p == q;
}
