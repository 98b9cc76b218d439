int row[];
int row[3];
