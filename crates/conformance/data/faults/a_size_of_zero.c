enum { none };
int row[none];
