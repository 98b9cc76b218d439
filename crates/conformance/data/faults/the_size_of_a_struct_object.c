struct pair { int a, b; } p;
unsigned long work(struct pair *q) {
  return sizeof q + sizeof *q;
}
