void work(int n) {
  while (n) {
  default:
    n = 0;
  }
}
