static int n;
int n;
