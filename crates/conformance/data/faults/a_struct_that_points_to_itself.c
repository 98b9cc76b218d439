struct node {
  int v;
  struct node *next, *all[2];
  struct node *(*way)(struct node *);
};
int main(void) {
  struct node n = {0};
  n.next = &n;
  return n.next->next->v;
}
