int get(void);
void work(int c, void *p) {
  c ? get : p;
}
