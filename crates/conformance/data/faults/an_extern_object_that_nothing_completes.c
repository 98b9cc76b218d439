extern struct node head;
int main(void) {
  return 0 && sizeof(struct node *);
}
