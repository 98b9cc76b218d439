struct node;
void work(void) {
  struct node n;
}
