int work(void) {
  struct node *p;
  {
    struct node { int v; } inner = {1};
    p = 0;
  }
  return p->v;
}
