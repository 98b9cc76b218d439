int work(int n) {
  switch (n) {
  case missing:
  case 1:
  case 1:
    n = 2;
  }
  return n;
}
