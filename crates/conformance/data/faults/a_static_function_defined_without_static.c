static int get(void);
int get(void) {
  return 0;
}
int main(void) {
  extern int get(void);
  int main = get();
  return main;
}
