int row[] = {1, 2, 3};
extern int row[2];
