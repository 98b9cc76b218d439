int n = 1 ? 2 : sizeof(struct node);
