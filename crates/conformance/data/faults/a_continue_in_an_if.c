void work(int n) {
  if (n)
    continue;
}
