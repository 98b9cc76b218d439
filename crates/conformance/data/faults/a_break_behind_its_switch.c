void work(int n) {
  switch (n) {
  case 1:
    if (n)
      break;
  }
  break;
}
