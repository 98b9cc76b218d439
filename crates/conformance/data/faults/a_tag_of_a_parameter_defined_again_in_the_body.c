int work(struct tag { int a; } *p) {
  struct tag { int b; } own;
  return 0;
}
