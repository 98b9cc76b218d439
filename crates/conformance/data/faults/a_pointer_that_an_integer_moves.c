char *next(char *p, long n) {
  p += 1;
  p = p + n - 'a';
  return p - 1L ? &p[n] : p;
}
int main(void) {
  char c[9] = "nine";
  return next(c, 99) == 0;
}
