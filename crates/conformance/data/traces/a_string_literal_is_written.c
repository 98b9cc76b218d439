int main(void) {
  char *s = "ab";
  s[1] = 'x';
  return 0;
}
