typedef unsigned long size_t;
int main(void) {
  size_t n = 3;
  return n != 3;
}
