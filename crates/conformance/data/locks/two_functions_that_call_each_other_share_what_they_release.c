pthread_mutex_t a, b, c;
int x, y, z;
pthread_t t;

void odd(int k);

void even(int k) {
  if (k)
    odd(k - 1);
  else
    pthread_mutex_lock(&b);
  pthread_mutex_unlock(&a);
}

void odd(int k) {
  even(k - 1);
}

void *w(void *q) {
  pthread_mutex_lock(&a);
  x = 1;
  pthread_mutex_unlock(&a);
  pthread_mutex_lock(&b);
  y = 1;
  pthread_mutex_unlock(&b);
  pthread_mutex_lock(&c);
  z = 1;
  pthread_mutex_unlock(&c);
  return 0;
}

int main(void) {
  pthread_create(&t, 0, w, 0);
  pthread_mutex_lock(&a);
  pthread_mutex_lock(&c);
  odd(3);
  x = 2;
  y = 2;
  z = 2;
  return 0;
}
