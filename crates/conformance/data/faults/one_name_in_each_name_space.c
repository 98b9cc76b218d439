struct node { int node; };
int main(void) {
  struct node node;
node:
  node.node = 1;
  if (node.node > 1)
    goto node;
  return 0;
}
