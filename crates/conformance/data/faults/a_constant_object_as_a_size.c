const int size = 3;
int row[size];
