int n;
void work(void) {
  __sync_fetch_and_add(&n, 1);
}
