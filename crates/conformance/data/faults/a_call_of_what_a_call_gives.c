int get(void);
int work(void) {
  return get()();
}
