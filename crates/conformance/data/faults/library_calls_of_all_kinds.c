static void *w(void *q) {
  pthread_exit(q);
}
int main(int count, char **words) {
  pthread_t t = pthread_self();
  pthread_mutex_t m = PTHREAD_MUTEX_INITIALIZER;
  pthread_cond_t c;
  pthread_cond_init(&c, 0);
  pthread_cond_broadcast(&c);
  pthread_cond_destroy(&c);
  pthread_mutex_destroy(&m);
  if (!pthread_equal(t, pthread_self()))
    pthread_detach(t);
  printf("%s %d %p\n", words[0], atoi(words[count - 1]), &t);
  perror("text");
  putchar(rand() + 'a');
  sleep(count);
  w ? puts("text") : 'c';
  exit(2L);
}
