int work(int pthread_mutex_trylock) {
  return pthread_mutex_trylock;
}
