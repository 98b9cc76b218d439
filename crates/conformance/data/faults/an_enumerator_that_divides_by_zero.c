enum { bad = 1 / 0 };
