int work(int n) {
  if (n)
    return;
  return n;
}
