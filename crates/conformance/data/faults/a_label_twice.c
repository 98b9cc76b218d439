void work(int n) {
again:
  if (n--) {
  again:
    goto again;
  }
}
