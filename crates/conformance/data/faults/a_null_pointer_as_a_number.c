int work(void) {
  return (void *)0;
}
