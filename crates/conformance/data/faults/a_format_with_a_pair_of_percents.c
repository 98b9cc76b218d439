int main(void) {
  printf("100%%n %5.2d %s", 1, "x");
  return 0;
}
