struct pair { int a, b; };
int *p = &((struct pair *)0)->b;
