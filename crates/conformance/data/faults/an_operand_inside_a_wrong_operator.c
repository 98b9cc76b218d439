int work(int *p) {
  return p * missing;
}
