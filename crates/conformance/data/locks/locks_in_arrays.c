struct account {
  pthread_mutex_t lock;
  int money;
};

struct account v[2];
pthread_mutex_t m[2];
int n;
pthread_t t;

void *w(void *q) {
  pthread_mutex_lock(&m[0]);
  n = 1;
  pthread_mutex_unlock(&m[0]);
  pthread_mutex_lock(&v[1].lock);
  v[1].money = 1;
  pthread_mutex_unlock(&v[1].lock);
  return 0;
}

int main(void) {
  pthread_create(&t, 0, w, 0);
  pthread_mutex_lock(&m[0]);
  n = 2;
  pthread_mutex_unlock(&m[0]);
  pthread_mutex_lock(&v[1].lock);
  v[1].money = 2;
  pthread_mutex_unlock(&v[1].lock);
  return 0;
}
