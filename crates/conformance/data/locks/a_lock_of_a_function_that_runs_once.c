struct cell {
  pthread_mutex_t lock;
  int n;
};

void *w(void *q) {
  struct cell *p = q;
  pthread_mutex_lock(&p->lock);
  p->n = 1;
  pthread_mutex_unlock(&p->lock);
  return 0;
}

void run(void) {
  struct cell s;
  pthread_t t;
  pthread_mutex_init(&s.lock, 0);
  pthread_create(&t, 0, w, &s);
  pthread_mutex_lock(&s.lock);
  s.n = 2;
  pthread_mutex_unlock(&s.lock);
}

int main(void) {
  run();
  return 0;
  run();
}
