struct flags {
  int n;
  int : 4;
  int k;
};
