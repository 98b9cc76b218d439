struct account {
  pthread_mutex_t lock;
  int money;
};

struct account a, b;
pthread_t t;

void *w(void *q) {
  pthread_mutex_lock(&a.lock);
  a.money = 1;
  b.money = 1;
  pthread_mutex_unlock(&a.lock);
  return 0;
}

int main(void) {
  pthread_create(&t, 0, w, 0);
  pthread_mutex_lock(&a.lock);
  a.money = 2;
  pthread_mutex_unlock(&a.lock);
  pthread_mutex_lock(&b.lock);
  b.money = 2;
  pthread_mutex_unlock(&b.lock);
  return 0;
}
