const int base = 3;
int twice = 2 * base;
