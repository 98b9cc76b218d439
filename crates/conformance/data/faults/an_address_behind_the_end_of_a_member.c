struct list { int n, row[2]; } l;
int *ok = &l.row[2], *p = &l.row[3];
