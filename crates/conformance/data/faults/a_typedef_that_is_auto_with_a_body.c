typedef auto int work(void) {
  return 0;
}
