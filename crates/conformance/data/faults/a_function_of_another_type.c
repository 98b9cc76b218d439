int get(void);
void work(void) {
  int (*way)(int) = get;
}
