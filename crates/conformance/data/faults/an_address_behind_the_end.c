int row[3];
int *p = row + 4;
