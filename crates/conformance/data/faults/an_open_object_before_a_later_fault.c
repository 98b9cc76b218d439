struct node head;
int main(void) {
  return missing;
}
