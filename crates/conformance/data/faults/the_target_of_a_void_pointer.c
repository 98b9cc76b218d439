int work(void *p) {
  return *p;
}
