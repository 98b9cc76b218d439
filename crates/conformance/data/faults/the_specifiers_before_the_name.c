int n;
static extern long n;
