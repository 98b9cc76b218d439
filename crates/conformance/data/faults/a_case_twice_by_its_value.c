int work(int n) {
  switch (n) {
  case 65:
    return 1;
  case 'A':
    return 2;
  }
  return 3;
}
