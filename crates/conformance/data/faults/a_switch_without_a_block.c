int main(void) {
  int n = 1;
  switch (n)
  case 1:
  case 2:
  default:
    n = 0;
  switch (n)
    while (n)
    case 0:
      n--;
  return n + 1;
}
