static n;
