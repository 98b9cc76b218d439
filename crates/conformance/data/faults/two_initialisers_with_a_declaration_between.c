int n = 1;
extern int n;
int n = 2;
