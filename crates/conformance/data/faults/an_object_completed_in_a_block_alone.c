struct node head;
int main(void) {
  struct node { int v; } n = {0};
  return n.v;
}
