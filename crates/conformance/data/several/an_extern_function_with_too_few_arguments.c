void put(char *text, int n, ...);
void work(void) {
  put("x");
}
