struct node {
  int v;
  struct node next;
};
