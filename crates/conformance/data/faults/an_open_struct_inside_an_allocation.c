void *work(void) {
  return malloc(2 + sizeof(struct node));
}
