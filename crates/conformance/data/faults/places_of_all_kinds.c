struct pair { int a, b[2]; } v, *p = &v;
int n, row[3], (*q)[3] = &row;
int get(void) {
  return 1;
}
int main(void) {
  int (*way)(void) = &get;
  (n) = 1;
  *&n = 2;
  (*p).a++;
  p->b[1] -= 1;
  --v.b[0];
  *(n ? &n : row) = 3;
  (*q)[2] = way();
  "abc"[1] = 'd';
  n = *&*&"abc"[0] - 'a';
  return n;
}
