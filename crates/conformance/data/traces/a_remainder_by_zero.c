int n;
int main(void) {
  return 7 % n;
}
