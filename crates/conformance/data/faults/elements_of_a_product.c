int *work(int n) {
  return calloc(1, n * sizeof(int));
}
