struct list { int n; };
extern struct list x;
