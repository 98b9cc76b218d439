int n = 2;
int *k = 5;
