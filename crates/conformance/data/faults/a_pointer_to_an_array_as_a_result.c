typedef int row[3];
static row rows[2];
row *first(void) {
  return rows;
}
int (*second(void))[3] {
  return rows + 1;
}
int main(void) {
  return (*first())[0] + (*second())[2];
}
