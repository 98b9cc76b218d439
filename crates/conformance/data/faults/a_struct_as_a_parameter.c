struct pair { int a, b; };
int sum(int n, struct pair p);
