struct list {
  int n;
  int rest[];
};
