struct node;
struct node *next(struct node *p) {
  return p + 1;
}
