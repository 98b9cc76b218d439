int main(void) {
  char x[2];
  {
    char x[3];
  }
  char behind[sizeof x == 3 ? 1 : -1];
  return 0;
}
