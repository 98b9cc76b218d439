struct pair {
  int a;
  static int b;
};
