void stop(void);
void work(int n) {
  n = stop();
}
