struct node { int outer; };
int work(void) {
  struct node { int inner; } n = {1};
  return n.outer;
}
