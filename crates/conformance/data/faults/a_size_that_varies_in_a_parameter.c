int sum(int n, int row[n]);
