int main(void) {
  pthread_t t = pthread_self(1);
  return 0;
}
