struct flags {
  int a, a : 2;
};
