int n;
char row[n++];
