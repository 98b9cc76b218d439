struct x {
  enum x *n;
};
