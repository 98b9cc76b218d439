struct outer {
  int a;
  struct inner {
    struct outer *p, o;
  } i;
};
