extern int n;
static int n;
