int *find(int n) {
  return n;
}
