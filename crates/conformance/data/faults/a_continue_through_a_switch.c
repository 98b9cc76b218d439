int main(void) {
  int n = 3;
  for (; n; n--)
    switch (n) {
    default:
      continue;
    case 1:
      break;
    }
  do {
    if (n)
      continue;
    break;
  } while (n);
  return n;
}
