int n;
int main(void) {
  n = 5;
  return n;
}
