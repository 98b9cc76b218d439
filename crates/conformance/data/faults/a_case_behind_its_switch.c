void work(int n) {
  switch (n) {
  case 1:
    n = 2;
  }
  case 2:
    n = 3;
}
