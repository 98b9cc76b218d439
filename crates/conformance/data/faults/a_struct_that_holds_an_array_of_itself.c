struct node {
  struct node *next, all[2];
};
