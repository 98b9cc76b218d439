int work(int n) {
  switch (n) {
  case 1:
    while (n--) {
    case 1:
      ;
    }
  }
  return n;
}
