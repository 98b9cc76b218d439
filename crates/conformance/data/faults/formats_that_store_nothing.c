int main(void) {
  printf("%5d%%n", 1);
  printf("%%ln%c%%%d", 'a', 2);
  return 0;
}
