struct node { int v; };
int work(void) {
  struct node;
  struct node *p = 0;
  return p->v;
}
