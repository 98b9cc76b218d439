struct node;
void work(struct node *p, struct node all[]);
