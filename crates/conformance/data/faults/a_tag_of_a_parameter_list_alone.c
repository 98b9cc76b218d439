int value(struct node *n);
struct node { int v; } head;
int work(void) {
  return value(&head);
}
