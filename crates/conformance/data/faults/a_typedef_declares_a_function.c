typedef int step(int);
step next;
int next(int n) {
  return n + 1;
}
int main(void) {
  step *way = next;
  return way(2) - 3;
}
