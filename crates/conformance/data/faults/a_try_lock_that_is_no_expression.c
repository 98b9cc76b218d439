struct calls { int pthread_mutex_trylock; } c;
int pthread_mutex_timedlock(void *);
int main(void) {
pthread_rwlock_init:
  return c.pthread_mutex_trylock;
}
