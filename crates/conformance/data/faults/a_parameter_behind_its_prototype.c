int scale(int factor, int limit);
int twice = 2 * factor;
