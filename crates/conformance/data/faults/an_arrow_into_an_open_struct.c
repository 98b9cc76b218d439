struct node;
int value(struct node *n) {
  return n->v;
}
struct node { int v; };
