struct pair { int a; };
int n = sizeof(int (*)(struct pair));
