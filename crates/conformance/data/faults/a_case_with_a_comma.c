int work(int n) {
  switch (n) {
  case (1, 2):
    n = 3;
  }
  return n;
}
