int a, b;
int same = &a == &b;
