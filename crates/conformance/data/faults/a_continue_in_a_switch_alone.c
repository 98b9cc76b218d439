void work(int n) {
  switch (n) {
  case 1:
    continue;
  }
}
