void work(int n) {
  while (n)
    n = 0;
  if (n)
    break;
}
