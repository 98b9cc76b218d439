typedef auto int count;
typedef auto register char byte;
auto static register int n;
static auto int get(auto register int a, register auto int b) {
  static register count kept;
  extern register int n;
  auto register byte c = 1;
  return a + b + kept + n + c;
}
char told[sizeof(count) == 4 && sizeof(byte) == 1 ? 1 : -1];
int main(void) {
  return get(1, sizeof(auto register int));
}
