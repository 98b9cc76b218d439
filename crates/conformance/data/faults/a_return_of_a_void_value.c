void stop(void);
void work(void) {
  return stop();
}
