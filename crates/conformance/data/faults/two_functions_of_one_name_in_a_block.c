void work(void) {
  int get(void), get(void);
  int get(int);
}
