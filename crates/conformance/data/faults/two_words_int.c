int int n;
