unsigned long work(void *p) {
  return (unsigned long)p;
}
