int n;
struct pair { int a; } n;
int main(void) {
  return n.a + n + missing;
}
