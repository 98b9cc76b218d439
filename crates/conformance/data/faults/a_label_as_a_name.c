int work(void) {
again:
  return again;
}
