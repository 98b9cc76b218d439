void first(void);
void work(void *once) {
  pthread_once(once, first);
}
