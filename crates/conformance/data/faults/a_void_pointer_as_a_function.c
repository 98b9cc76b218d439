void work(void *p) {
  void (*way)(void);
  way = p;
}
