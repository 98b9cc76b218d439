typedef int step(int);
struct pair {
  step *way, own;
};
