int row[4];
int main(void) {
  int *p = row, *q = &row[3];
  long n = q - p;
  return p < q && p != q && p != 0 && (void *)p != q && !(p == (void *)0) ? n - 3 : 1;
}
