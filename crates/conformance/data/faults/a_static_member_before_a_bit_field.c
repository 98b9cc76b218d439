struct flags {
  static int a : 3;
};
