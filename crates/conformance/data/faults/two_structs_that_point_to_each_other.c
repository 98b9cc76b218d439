struct left {
  struct right *r;
};
struct right {
  struct left l;
  int n;
} v;
int main(void) {
  v.l.r = &v;
  return v.l.r->n;
}
