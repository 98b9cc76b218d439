int *p;
int main(void) {
  p = p + 1;
  return 0;
}
