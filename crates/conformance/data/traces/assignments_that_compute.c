int n;
char c;
int main(void) {
  n += 3;
  n++;
  c += 5;
  --c;
  return n - c;
}
