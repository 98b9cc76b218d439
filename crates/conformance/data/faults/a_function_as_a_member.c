struct pair {
  int a;
  int get(void);
};
