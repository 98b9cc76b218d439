struct x {
  enum x { low } n;
};
