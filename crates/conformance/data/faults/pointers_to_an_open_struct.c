struct node;
extern struct node head;
struct node *same(struct node *n) {
  *n;
  return &*n;
}
int main(void) {
  return same(0) != 0;
}
