int rows[2][3];
int (*p)[2] = rows;
