struct main { int main; };
static int work(int main) {
  struct main v = {main};
  return v.main;
}
int main(void) {
  int main = work(1);
main:
  return main - 1;
}
