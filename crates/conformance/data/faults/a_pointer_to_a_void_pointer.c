int *p;
void **all = &p;
