struct queue { pthread_mutex_t lock; pthread_cond_t more; } q;
pthread_mutex_t all[2], *p = all;
static void with(pthread_mutex_t *m) {
  pthread_mutex_lock(m);
  pthread_mutex_unlock(m);
}
int main(void) {
  with(&q.lock);
  with(&*p);
  with(all + 1);
  pthread_cond_signal(&q.more);
  return &q.lock == p || &all[1] == 0;
}
