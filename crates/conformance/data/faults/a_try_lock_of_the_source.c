static int pthread_mutex_trylock(int n) {
  return n;
}
int main(void) {
  return pthread_mutex_trylock(0);
}
