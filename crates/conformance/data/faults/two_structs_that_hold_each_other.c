struct left {
  struct right r;
};
struct right {
  struct left l;
};
