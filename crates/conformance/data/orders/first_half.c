pthread_mutex_t a;
extern pthread_mutex_t b;
int log_line(int n);
void both(void) {
  pthread_mutex_lock(&a);
  pthread_mutex_lock(&b);
  log_line(1);
  pthread_mutex_unlock(&b);
  pthread_mutex_unlock(&a);
}
