struct left { int a; } l;
struct right { int a; } r;
void work(void) {
  l = r;
}
