int n = 1;
extern int n = 1;
