pthread_mutex_t m;
int f, d, h, b, c;
pthread_t t;

void *w(void *q) {
  pthread_mutex_lock(&m);
  f = 1;
  d = 1;
  h = 1;
  b = 1;
  pthread_mutex_unlock(&m);
  return 0;
}

void third_part(void) {
  pthread_mutex_lock(&m);
  for (; c; pthread_mutex_lock(&m)) {
    pthread_mutex_unlock(&m);
    if (c == 1)
      continue;
    c = 2;
  }
  f = 2;
  pthread_mutex_unlock(&m);
}

void condition(void) {
  pthread_mutex_lock(&m);
  do {
    pthread_mutex_unlock(&m);
    if (c == 1)
      continue;
    c = 2;
  } while (pthread_mutex_lock(&m) + c);
  d = 2;
  pthread_mutex_unlock(&m);
}

void head(void) {
  pthread_mutex_lock(&m);
  while (c) {
    h = 2;
    if (c == 1)
      continue;
    pthread_mutex_unlock(&m);
    break;
  }
  b = 2;
}

int main(void) {
  pthread_create(&t, 0, w, 0);
  third_part();
  condition();
  head();
  return 0;
}
