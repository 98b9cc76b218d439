struct flags {
  int a, b : 2, c : 3;
};
