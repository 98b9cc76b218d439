struct list { int n; struct list *next; };
struct s { struct t *p; };
struct t { int n; };
struct open { int n; } in;
struct list x = { 1, &x };
struct t u;
struct s y = { &u };
struct { int n; } z;
struct open *o = &in;

void *w(void *q) {
  x.n = 1;
  u.n = 1;
  z.n = 1;
  o->n = 1;
  return 0;
}
