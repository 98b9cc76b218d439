int n;
int work(void) {
  return atomic_load(&n);
}
