int (*work(int n))[2] {
  return malloc(sizeof(int [n]));
}
