struct node;
struct list { struct node *first; } all;
struct node { struct list *of; int v; };
static int value(struct node *n) {
  struct node { char c; } *other = 0;
  return other == 0 ? n->v : 1;
}
int main(void) {
  struct node n = {&all, 0};
  all.first = &n;
  return value(all.first->of->first);
}
