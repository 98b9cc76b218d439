static int setjmp(int n) {
  return n;
}
int main(void) {
  int (*way)(int) = setjmp;
  return way(0);
}
