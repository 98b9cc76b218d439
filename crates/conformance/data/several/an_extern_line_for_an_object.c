int n, *p = &n;
int main(void) {
  return n;
}
