struct node head;
int main(void) {
  return head.v;
}
struct node { int v; };
