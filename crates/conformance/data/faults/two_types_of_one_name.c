int size;
long size;
