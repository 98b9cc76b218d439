struct other { int n; };
extern struct other x;
