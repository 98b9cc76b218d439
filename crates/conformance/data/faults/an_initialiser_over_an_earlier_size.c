extern int row[2];
int row[] = {1, 2, 3};
