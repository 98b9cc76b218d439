int n = sizeof(static int);
