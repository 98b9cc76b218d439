struct node first(void);
