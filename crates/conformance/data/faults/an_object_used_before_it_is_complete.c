struct node head, *p = &head;
int main(void) {
  return p->v;
}
struct node { int v; };
