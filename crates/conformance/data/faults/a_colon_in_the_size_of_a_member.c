struct flags {
  int a[sizeof(int) == 4 ? 3 : 1];
} v;
int main(void) {
  return v.a[2];
}
