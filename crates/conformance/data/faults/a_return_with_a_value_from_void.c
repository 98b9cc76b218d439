void work(int n) {
  if (n)
    return n;
}
