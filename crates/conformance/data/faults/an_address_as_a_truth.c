int n;
_Bool known = &n, unknown = (void *)0;
int main(void) {
  return known + unknown - 1;
}
