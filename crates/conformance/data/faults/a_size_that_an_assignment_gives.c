int n;
char row[n = 5];
