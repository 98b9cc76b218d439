static extern int n;
