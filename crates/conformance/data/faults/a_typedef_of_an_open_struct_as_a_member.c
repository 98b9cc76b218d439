typedef struct node node;
struct list {
  node *first;
  node last;
};
struct node { int v; };
