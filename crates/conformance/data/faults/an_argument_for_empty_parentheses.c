int get();
int work(void) {
  return get(1);
}
