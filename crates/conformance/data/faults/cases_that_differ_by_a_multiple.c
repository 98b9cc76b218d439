int work(unsigned char c, long n) {
  switch (c) {
  case 1:
  case 257:
    return 1;
  }
  switch (n) {
  case 1:
  case 4294967297:
    return 2;
  }
  return 0;
}
int main(void) {
  return work(0, 0);
}
