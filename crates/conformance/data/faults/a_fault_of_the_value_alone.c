static extern int n = missing;
