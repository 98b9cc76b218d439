pthread_mutex_t m;

int main(void) {
  if (!pthread_mutex_trylock(&m))
    pthread_mutex_unlock(&m);
  return 0;
}
