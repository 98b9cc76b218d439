int n = 7;
int a[3] = { 1, 2 };
int *p = &a[2];
int *last = a + 3;
int *none = 0;
int *first = &n;
int f(void) { return 1; }
int (*g)(void) = f;
char s[] = "hi";
int main(void) {
  *p = a[1];
  a[s[2]] = n;
  *first = g();
  none = last;
  *none = 0;
  return 0;
}
