struct outer {
  int a;
  struct outer { int x; } inner;
};
