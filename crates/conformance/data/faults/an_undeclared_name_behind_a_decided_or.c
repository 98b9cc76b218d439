enum { some = 1 || missing };
