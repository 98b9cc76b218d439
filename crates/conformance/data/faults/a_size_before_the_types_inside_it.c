int n;
int row[n], *p = 5;
