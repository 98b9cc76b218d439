int main(void) {
  return sizeof(pthread_mutex_t) == 8;
}
