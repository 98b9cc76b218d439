struct node head;
int main(void) {
  return 0;
}
