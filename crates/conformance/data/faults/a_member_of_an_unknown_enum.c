struct pair {
  int a;
  enum shade s;
};
