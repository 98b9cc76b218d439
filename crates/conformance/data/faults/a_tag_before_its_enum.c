struct shape { int x; };
void work(void) {
  int n = 0;
}
enum shape s;
