struct pair { int a, b; };
struct pair *work(void) {
  return malloc(sizeof(struct pair) + 4);
}
