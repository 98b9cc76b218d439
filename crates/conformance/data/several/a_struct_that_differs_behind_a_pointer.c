struct s { struct t *p; };
struct t { int n; };
struct s x;

int main(void) {
  return x.p->n;
}
