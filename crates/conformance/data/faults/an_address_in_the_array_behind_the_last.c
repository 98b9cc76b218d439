int rows[2][2];
int (*ok)[2] = rows + 2;
int *p = rows[2];
