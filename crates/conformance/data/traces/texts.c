char *s = "ab";
int main(void) {
  char t[3] = "x";
  puts(s);
  printf("%d", t[0]);
  return s[1];
}
