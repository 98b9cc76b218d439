static int n = 1;
static int n = 2;
