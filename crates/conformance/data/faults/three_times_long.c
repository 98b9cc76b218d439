void work(void) {
  long long long n;
}
