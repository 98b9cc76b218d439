struct pair { int a; } p;
void put(int n, ...);
void work(void) {
  put(1, p);
}
