void work(int n) {
  printf("%d of %-3.2ln", n, 5);
}
