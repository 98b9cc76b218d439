int main(void) {
  {
    int inner = 1;
    inner = 2;
  }
  return inner;
}
