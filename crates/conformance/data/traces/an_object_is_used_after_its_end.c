int main(void) {
  int *p = malloc(sizeof(int));
  *p = 1;
  free(p);
  *p = 2;
  return 0;
}
