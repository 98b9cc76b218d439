int n;
int work(void) {
  return __atomic_load_n(&n, 0);
}
