int n = 1, k = 1;
int main(void) {
  return 0;
}
