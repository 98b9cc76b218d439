struct x { char of[1]; } first;
char outside[sizeof((struct x *)0)->of == 1 ? 1 : -1];
int main(void) {
  struct x named = {{0}};
  char before[sizeof named.of == 1 ? 1 : -1];
  {
    struct x { char of[2]; } hidden = {{0}};
    struct x again = {{0}};
    char inner[sizeof again.of == 2 && sizeof hidden.of == 2 ? 1 : -1];
  }
  struct x behind = {{0}};
  char outer[sizeof behind.of == 1 ? 1 : -1];
  struct x *p = &first;
  return 0;
}
