int setjmp(void *);
int work(void *p) {
  return setjmp(p);
}
