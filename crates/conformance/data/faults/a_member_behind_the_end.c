struct list { int n, row[2]; } l;
struct list *ok = &(&l)[1];
int *p = &(&l)[1].n;
