int *p;
int *q = &*p;
