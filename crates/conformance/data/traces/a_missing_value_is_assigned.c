int f(void) {
}
int main(void) {
  int x;
  x = f();
  return 0;
}
