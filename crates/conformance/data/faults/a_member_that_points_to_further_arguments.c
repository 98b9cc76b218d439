typedef int sum(int, ...);
struct calls {
  sum *way;
};
