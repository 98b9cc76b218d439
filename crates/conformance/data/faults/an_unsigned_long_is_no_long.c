extern long all;
extern int unsigned long all;
