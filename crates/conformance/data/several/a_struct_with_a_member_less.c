struct list { int n; struct list *next; } x;

int main(void) {
  return x.n;
}
