struct pair { int a, b; };
void *work(void) {
  return calloc(sizeof(struct pair), sizeof(int));
}
