struct node head;
struct node { int v; };
int main(void) {
  return head.v;
}
