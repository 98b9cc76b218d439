struct pair { int a, b; };
int n = sizeof(struct pair);
