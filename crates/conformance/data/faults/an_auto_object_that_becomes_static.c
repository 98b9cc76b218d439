auto int n;
static int n;
