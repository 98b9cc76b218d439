int n;
int *p = &n;
int *q = p;
