struct x { char of[1]; };
int main(void) {
  {
    struct x { char of[2]; };
  }
  struct x behind;
  char outer[sizeof behind.of == 2 ? 1 : -1];
  return 0;
}
