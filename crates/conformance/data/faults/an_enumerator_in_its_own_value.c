enum { first, second = second + 1 };
