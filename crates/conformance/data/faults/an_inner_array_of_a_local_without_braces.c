struct list { int n, row[2]; };
int main(void) {
  struct list l = {2, 3};
  return l.n;
}
