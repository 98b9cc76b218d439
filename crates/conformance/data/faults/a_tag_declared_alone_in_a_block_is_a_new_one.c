struct x { char of[1]; };
int main(void) {
  struct x;
  struct x *p = 0;
  struct x { char of[2]; };
  char own[sizeof p->of == 2 ? 1 : -1];
  return 0;
}
