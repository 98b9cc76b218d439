int n = 1;
int main(void) {
  {
    char *n = "hidden";
    n = n + 1;
  }
  return n - 1;
}
