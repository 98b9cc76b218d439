int atomic_count;
void work(void) {
  atomic_count = 1;
}
