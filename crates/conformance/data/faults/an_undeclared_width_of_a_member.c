struct flags {
  int ready : width;
};
