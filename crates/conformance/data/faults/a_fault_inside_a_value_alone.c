int main(void) {
  int int n = *(int *)5;
  return n;
}
