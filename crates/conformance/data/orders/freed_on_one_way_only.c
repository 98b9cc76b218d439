pthread_mutex_t a, b;
int n;
int main(void) {
  pthread_mutex_lock(&a);
  if (n) pthread_mutex_unlock(&a);
  pthread_mutex_lock(&b);
  pthread_mutex_lock(&a);
  return 0;
}
