static struct node head;
struct node { int v; };
