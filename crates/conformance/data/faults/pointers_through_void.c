int n, rows[2][3];
void *any = &n;
int (*all)[3] = rows;
static char *bytes(void *from) {
  return from;
}
static int get(void) {
  return 0;
}
int main(void) {
  const int *p = any;
  char *c = (char *)(void *)p;
  int (*way)(void) = (int (*)(void))get;
  any = &all;
  c = bytes(rows);
  return c == 0 ? 1 : way();
}
