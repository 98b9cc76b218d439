struct pair { int a, b; } p;
int work(void) {
  return (int)p;
}
