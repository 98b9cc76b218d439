int a[4];
int b[4];
int main(void) {
  int *p = a + 3;
  int *q = &a[1];
  b[p - q] = 0;
  b[q < p] = 0;
  b[p - 2 == q] = 0;
  b[p != 0] = 0;
  q = q + 3;
  b[q == a] = 0;
  b[(void *)&a == (void *)a] = 0;
  return *q;
}
