struct cell {
  pthread_mutex_t lock;
  int n;
};

void *w(void *q) {
  struct cell *p = q;
  pthread_mutex_lock(&p->lock);
  p->n = 1;
  pthread_mutex_unlock(&p->lock);
  return 0;
}

void *run(void *q) {
  struct cell s;
  pthread_t t;
  pthread_mutex_init(&s.lock, 0);
  pthread_create(&t, 0, w, &s);
  pthread_mutex_lock(&s.lock);
  s.n = 2;
  pthread_mutex_unlock(&s.lock);
  return 0;
}

int main(void) {
  pthread_t a, b;
  pthread_create(&a, 0, run, 0);
  pthread_create(&b, 0, run, 0);
  return 0;
}
