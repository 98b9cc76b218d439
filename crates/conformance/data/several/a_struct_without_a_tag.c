struct s { int n; } x;

int main(void) {
  return x.n;
}
