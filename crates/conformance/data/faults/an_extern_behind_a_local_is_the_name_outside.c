int n = 3;
int main(void) {
  char n = 1;
  {
    extern int n;
    char outside[sizeof n == 4 ? 1 : -1];
  }
  char own[sizeof n == 1 ? 1 : -1];
  return 0;
}
