extern int n;
extern long n;
