short long n;
