static int get() {
  return 1;
}
static int (*find(void))(void) {
  return get;
}
int main(void) {
  int (*all[2])(void) = {get, &get};
  (puts)("x");
  return (&get)() + (**get)() - all[1]() - find()() + ((get))() - (*all[0])();
}
