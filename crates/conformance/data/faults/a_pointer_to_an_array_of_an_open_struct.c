struct node {
  struct node *all[2], (*rows)[2];
};
