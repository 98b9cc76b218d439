struct pair { int a; };
void work(int n) {
  (struct pair)n;
}
