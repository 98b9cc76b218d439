struct pair { int a; } p, *q;
void work(void) {
  q = p;
}
