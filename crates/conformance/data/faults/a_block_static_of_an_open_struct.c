void work(void) {
  static struct node *p, n;
}
