static char *memcpy(char *to, char *from, int n) {
  while (n--)
    to[n] = from[n];
  return to;
}
int main(void) {
  char a[2] = "x", b[2], semaphore[2] = {0};
  return memcpy(b, a, 2)[1] + semaphore[0];
}
