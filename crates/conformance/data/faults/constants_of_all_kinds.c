enum { four = 4, low = -2147483647 - 1, high = 'a' + (four << 2) };
static struct { int a, b[four]; } v;
static int row[3] = {four, sizeof row / sizeof row[0], (int)4294967301};
int *end = &row[3], *last = row + (four - 2), *inner = &v.b[1], *also = &(&v)->b[3] - 1;
char *text = "abc" + 3;
int main(void) {
  static int *p = &row[1], **q = &p;
  switch (**q) {
  case sizeof(int[3]) - 1:
  case -1 >> 1:
    return 1;
  case four ? high : 1 / 0:
    return 2;
  }
  return 0;
}
