void stop(void);
void work(void) {
  printf("%d", stop());
}
