extern struct { int n; } x;
