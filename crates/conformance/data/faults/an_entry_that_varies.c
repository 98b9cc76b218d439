int n;
struct { int a; int *p; } v[] = {{1, &n}, {n, 0}};
