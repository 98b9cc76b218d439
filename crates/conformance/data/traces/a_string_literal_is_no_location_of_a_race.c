char *s = "ab";
void *w(void *q) {
  s[0] = 'c';
  return 0;
}
int main(void) {
  pthread_t t;
  pthread_create(&t, 0, w, 0);
  return s[0];
}
