int n;
static int n;
