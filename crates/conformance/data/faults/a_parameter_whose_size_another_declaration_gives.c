int first(int (*all)[]);
int first(int (*all)[3]);
int rows[2][2];
int work(void) {
  return first(rows);
}
