int n;
enum { some = 1 || n };
