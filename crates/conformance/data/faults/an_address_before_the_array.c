int rows[2][2];
int *p = &rows[1][-1];
