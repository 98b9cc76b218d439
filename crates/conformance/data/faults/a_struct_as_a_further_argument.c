struct pair { int a, b; } p;
void work(void) {
  printf("%d", p);
}
