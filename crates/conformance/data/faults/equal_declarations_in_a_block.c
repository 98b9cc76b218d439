int n;
int main(void) {
  extern int n;
  extern int n;
  int get(int), get(const int get);
  return n;
}
