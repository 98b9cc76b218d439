struct pair { int a; } p;
void work(int n) {
  p = n;
}
