extern void *any, *other;

void *w(void *q) {
  {
    struct s { int n; } *p = any;
    p->n = 1;
  }
  {
    struct s { int n; } *p = any;
    p->n = 3;
  }
  {
    struct t { int n; } *p = other;
    p->n = 1;
  }
  return 0;
}
