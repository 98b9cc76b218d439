struct list { int n, row[2]; } l;
struct list *ok = &l + 1, *p = &l - 1;
