int rows[2][3];
int first(int (*all)[]);
int work(void) {
  int (*p)[3] = rows;
  return first(p);
}
