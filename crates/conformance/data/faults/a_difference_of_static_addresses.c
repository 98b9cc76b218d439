int row[3];
long n = &row[3] - &row[0];
