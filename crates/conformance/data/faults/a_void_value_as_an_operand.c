void stop(void);
int work(void) {
  return 1 + stop() * 2;
}
