char x[1];
int work(char (*x)[2]) {
  char inner[sizeof x == 1 ? 1 : -1];
  return 0;
}
