int n;
int row[1 ? 3 : n];
