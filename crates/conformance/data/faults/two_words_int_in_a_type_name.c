int n = sizeof(int int);
