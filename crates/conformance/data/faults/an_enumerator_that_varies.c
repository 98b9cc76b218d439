int n;
enum { some = 1, more = n };
