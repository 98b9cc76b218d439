struct pair {
  int a;
  void b;
};
