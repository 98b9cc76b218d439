int next(void);
int work(void) {
  return next(3);
}
