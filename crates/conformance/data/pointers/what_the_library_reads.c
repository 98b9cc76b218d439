char s[8], *hello = "hello";
int n;
pthread_t t;

void *w(void *q) {
  s[0] = '1';
  n = 1;
  return 0;
}

int main(void) {
  pthread_create(&t, 0, w, 0);
  puts(hello);
  puts(s);
  printf("%s %d\n", s, n);
  return atoi(&s[1]);
}
