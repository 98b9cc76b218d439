int n;
int main(void) {
  void *v = &n;
  int *p = v;
  char *c = v;
  return *p + *c;
}
