int a[4];
int pick(int *p, int k) {
  if (k)
    return pick(p + 1, k - 1);
  *p = 1;
  return k;
}
int main(void) {
  int (*f)(int *, int) = pick;
  return f(a, 1);
}
