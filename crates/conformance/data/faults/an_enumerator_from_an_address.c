char c;
enum { some = &c == 0 };
