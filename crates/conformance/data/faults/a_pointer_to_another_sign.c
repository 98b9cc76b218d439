unsigned *work(int *p) {
  return p;
}
