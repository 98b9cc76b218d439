static char *same(char *p) {
  if (p)
    return p;
  return malloc(6);
}
int main(void) {
  struct { const char *p; } v;
  char *all[1] = {malloc(3)};
  v.p = malloc(sizeof(int));
  v.p = calloc(2, sizeof(char));
  (void)malloc(sizeof v.p);
  puts(malloc(5));
  return same(malloc(5)) == all[0];
}
