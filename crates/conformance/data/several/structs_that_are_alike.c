struct list { int n; struct list *next; };
struct s { struct t *p; };
struct t { int n; };
struct open;
extern struct list x;
extern struct s y;
extern struct { int n; } z;
extern struct open *o;
void *w(void *q);

int main(void) {
  pthread_t t;
  pthread_create(&t, 0, w, 0);
  x.next->n = 2;
  y.p->n = 2;
  z.n = 2;
  return o != 0;
}
