struct pair { int a, b; };
void *get(size_t n);
void *work(void) {
  return get(sizeof(struct pair));
}
