int n = sizeof(extern int);
