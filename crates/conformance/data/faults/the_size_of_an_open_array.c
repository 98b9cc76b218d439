extern int row[];
unsigned long size(void) {
  return sizeof row;
}
int row[3];
