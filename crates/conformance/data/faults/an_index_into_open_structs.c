struct node;
struct node *second(struct node *p) {
  return &p[1];
}
