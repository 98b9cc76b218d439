int f(void) {
  return missing;
}
int *p = 5;
