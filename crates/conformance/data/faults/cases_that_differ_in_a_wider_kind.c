static int by_byte(char c) {
  switch (c) {
  case -56:
    return 1;
  case 200:
    return 2;
  }
  return 0;
}
static int by_long(long n) {
  switch (n) {
  case 4294967295:
    return 1;
  case -1:
    return 2;
  }
  return 0;
}
int main(void) {
  return by_byte(0) + by_long(0);
}
