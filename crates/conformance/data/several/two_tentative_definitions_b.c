extern int n;
int n;
int n = 1;
