int get(void);
void work(void) {
  get = get;
}
