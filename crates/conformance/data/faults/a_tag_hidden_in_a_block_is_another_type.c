struct node { int v; } head;
void work(void) {
  struct node { int v; };
  struct node *p = &head;
}
