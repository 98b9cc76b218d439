int a[2];
int b[2];
int main(void) {
  return a < b;
}
