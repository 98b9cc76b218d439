struct flags {
  int n;
  unsigned ready : 1;
};
