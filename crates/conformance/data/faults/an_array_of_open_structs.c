extern struct node all[3];
struct node { int v; };
