char x[1];
struct tag { char of[1]; };
static int work(char (*x)[2], struct tag { char of[2]; } *p, char own[sizeof *x == 2 ? 1 : -1]) {
  char inner[sizeof *x == 2 && sizeof p->of == 2 ? 1 : -1];
  struct tag again = {{0}};
  char tags[sizeof again.of == 2 ? 1 : -1];
  struct tag *q = p;
  return q == p;
}
char behind[sizeof x == 1 && sizeof((struct tag *)0)->of == 1 ? 1 : -1];
int main(void) {
  return work(0, 0, 0);
}
