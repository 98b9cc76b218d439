pthread_mutex_t a, b;
void take(void) { pthread_mutex_lock(&a); }
void give(void) { pthread_mutex_unlock(&a); }
int main(void) {
  take();
  pthread_mutex_lock(&b);
  pthread_mutex_unlock(&b);
  give();
  pthread_mutex_lock(&b);
  pthread_mutex_unlock(&b);
  return 0;
}
