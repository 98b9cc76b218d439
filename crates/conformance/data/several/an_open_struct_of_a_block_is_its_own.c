struct s { int n; };
struct s *x;

int main(void) {
  return x->n;
}
