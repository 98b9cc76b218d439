int main(void) {
  int n = pthread_self();
  return n;
}
