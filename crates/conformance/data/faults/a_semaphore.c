void work(void *s) {
  sem_wait(s);
}
