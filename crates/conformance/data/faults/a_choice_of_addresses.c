int n;
int *p = 1 ? &n : 0;
