struct account {
  pthread_mutex_t lock;
  int money;
};

void *w(void *q) {
  struct account *p = q;
  pthread_mutex_lock(&p->lock);
  p->money = 1;
  pthread_mutex_unlock(&p->lock);
  return 0;
}

int main(void) {
  pthread_t t;
  struct account *p = malloc(sizeof *p);
  if (!p)
    return 1;
  pthread_mutex_init(&p->lock, 0);
  pthread_create(&t, 0, w, p);
  pthread_mutex_lock(&p->lock);
  p->money = 2;
  pthread_mutex_unlock(&p->lock);
  pthread_join(t, 0);
  pthread_mutex_destroy(&p->lock);
  free(p);
  return 0;
}
