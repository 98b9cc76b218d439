struct pair { int a, b; } p;
void take(int *a);
void work(void) {
  take(p);
}
