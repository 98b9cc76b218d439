struct pair { int a; } p;
int work(void) {
  int row[2] = {1, p};
  return row[0];
}
