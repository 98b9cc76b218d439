int n;
int main(void) {
  free(&n);
  return 0;
}
