pthread_mutex_t m;
int n, k, c;
pthread_t t;

void *w(void *q) {
  pthread_mutex_lock(&m);
  n = 1;
  k = 1;
  pthread_mutex_unlock(&m);
  return 0;
}

int main(void) {
  pthread_create(&t, 0, w, 0);
  pthread_mutex_lock(&m);
  if (c)
    goto held;
  pthread_mutex_unlock(&m);
  goto out;
held:
  k = 2;
out:
  n = 2;
  return 0;
}
