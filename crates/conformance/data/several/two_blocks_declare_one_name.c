int main(void) {
  {
    extern int n;
  }
  {
    extern char n;
  }
  return 0;
}
