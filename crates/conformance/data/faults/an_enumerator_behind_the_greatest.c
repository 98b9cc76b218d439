enum {
  greatest = 2147483647,
  beyond
};
