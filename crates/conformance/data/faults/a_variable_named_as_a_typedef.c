typedef int count;
char count;
