int n = sizeof(struct node { struct node next; } *);
