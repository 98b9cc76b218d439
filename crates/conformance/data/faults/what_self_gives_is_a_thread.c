char told[sizeof(pthread_self()) == 8 ? 1 : -1];
int main(void) {
  pthread_t t = pthread_self();
  return pthread_equal(t, (pthread_self)()) - 1;
}
