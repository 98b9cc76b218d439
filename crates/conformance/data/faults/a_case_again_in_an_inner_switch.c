int work(int n, int k) {
  switch (n) {
  case 1:
    switch (k) {
    case 1:
      return 11;
    case 2:
      break;
    default:
      return 10;
    }
  case 2:
    return 2;
  default:
    return 0;
  }
}
int main(void) {
  return work(0, 1);
}
