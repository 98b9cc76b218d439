enum { a = 1 ? 2 : 1 / 0, b = 0 && 1 % 0, c = 1 || 2147483647 + 1 };
int row[0 ? 1 << 99 : a] = {0 ? -1 << 1 : 3, sizeof(1 / 0)};
static long all = sizeof(int[2 - (1 || 1 / 0)]);
int main(void) {
  switch (row[0]) {
  case 0 && (1 / 0 || 1):
    return all;
  }
  return b - c + 1;
}
