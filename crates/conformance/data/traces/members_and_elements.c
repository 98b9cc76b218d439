struct part {
  int k;
  int v[3];
};
struct part t[2];
int main(void) {
  struct part *p = &t[1];
  p->v[2] = 1;
  t[0].k = 2;
  return p->k;
}
