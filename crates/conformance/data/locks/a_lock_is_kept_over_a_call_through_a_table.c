pthread_mutex_t m;
int n, k;
pthread_t t;

void set_n(void) {
  n = 1;
}

void set_k(void) {
  k = 1;
}

void (*table[2])(void) = { set_n, set_k };

void *w(void *q) {
  pthread_mutex_lock(&m);
  table[0]();
  pthread_mutex_unlock(&m);
  return 0;
}

int main(void) {
  pthread_create(&t, 0, w, 0);
  pthread_mutex_lock(&m);
  (*table[1])();
  pthread_mutex_unlock(&m);
  return 0;
}
