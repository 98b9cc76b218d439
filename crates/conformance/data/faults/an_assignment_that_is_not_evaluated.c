int n;
int k = 0 && (n = 1);
