void work(void) {
  struct inner { int a; } v = {1};
  v.a = 2;
}
struct inner w;
