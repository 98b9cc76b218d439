int n;
extern int n;
int n = 1;
int n;
int twice(int);
int twice(int a) {
  return 2 * a;
}
int twice(int b), twice(const int);
int main(void) {
  return twice(n) - 2;
}
