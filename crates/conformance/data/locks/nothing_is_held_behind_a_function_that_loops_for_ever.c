pthread_mutex_t m;
int n;
pthread_t t;

void *w(void *q) {
  pthread_mutex_lock(&m);
  n = 1;
  pthread_mutex_unlock(&m);
  return 0;
}

void spin(void) {
  pthread_mutex_lock(&m);
  for (;;)
    ;
}

int main(void) {
  pthread_create(&t, 0, w, 0);
  spin();
  n = 2;
  return 0;
}
