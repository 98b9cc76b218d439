pthread_mutex_t a, b;
int x, y;
pthread_t t;

void odd(int k);

void even(int k) {
  pthread_mutex_lock(&a);
  x = 1;
  pthread_mutex_unlock(&a);
  if (k)
    odd(k - 1);
}

void odd(int k) {
  pthread_mutex_lock(&b);
  y = 1;
  even(k);
  pthread_mutex_unlock(&b);
}

void *w(void *q) {
  even(3);
  return 0;
}

int main(void) {
  pthread_create(&t, 0, w, 0);
  pthread_mutex_lock(&a);
  x = 2;
  pthread_mutex_unlock(&a);
  pthread_mutex_lock(&b);
  y = 2;
  pthread_mutex_unlock(&b);
  return 0;
}
