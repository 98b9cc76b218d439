int main(void) {
  int *p = malloc(2 * sizeof(int));
  p[1] = 3;
  return p[1] + p[0];
}
