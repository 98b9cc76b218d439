int work(int *p) {
  return (p * 2) + missing;
}
