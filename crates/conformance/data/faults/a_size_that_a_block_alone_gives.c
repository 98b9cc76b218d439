extern int row[];
int work(void) {
  { extern int row[3]; }
  return sizeof row;
}
