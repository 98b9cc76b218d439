void *work(void *p) {
  return free(p);
}
