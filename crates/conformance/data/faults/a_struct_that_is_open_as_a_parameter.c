struct node;
int value(struct node n) {
  return 0;
}
