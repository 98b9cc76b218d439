struct list { struct list *next; int n; };
extern struct list x;
