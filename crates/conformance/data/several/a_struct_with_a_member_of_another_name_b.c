struct list { int m; struct list *next; };
extern struct list x;
