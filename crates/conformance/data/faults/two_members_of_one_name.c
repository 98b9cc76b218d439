struct pair {
  int a;
  char *a;
};
